//! The families in no order are the shapes that they are named for, and their order doesn't show.

use crate::common::{arrows_of, word};
use bench::bytes::Arrow;
use bench::{families, unordered};
use std::collections::BTreeSet;

const N: usize = 256;

fn arrows(chart: &str) -> Vec<Arrow> {
    arrows_of(&families::chart(chart, N, 8 * N).unwrap())
}

/// The states that each state leads to, itself left out.
fn others(arrows: &[Arrow]) -> Vec<BTreeSet<usize>> {
    let mut others = vec![BTreeSet::new(); N];
    for arrow in arrows.iter().filter(|arrow| arrow.start != arrow.end) {
        others[usize::from(arrow.start)].insert(usize::from(arrow.end));
    }
    others
}

/// The most arrows in a row to the end from each state; none if they lead round a loop.
fn heights(others: &[BTreeSet<usize>]) -> Option<Vec<usize>> {
    let mut heights = vec![0; N];
    for _ in 0..=N {
        let before = heights.clone();
        for s in 0..N {
            heights[s] = others[s].iter().map(|&end| before[end] + 1).max().unwrap_or(0);
        }
        if heights == before {
            return Some(heights);
        }
    }
    None
}

#[test]
fn hidden_is_one_chain() {
    for chart in unordered::charts("hidden") {
        let mut heights = heights(&others(&arrows(&chart))).unwrap();
        heights.sort();
        assert!(heights.into_iter().eq(0..N), "{chart}");
    }
}

#[test]
fn layers_are_as_many_as_eight_states_make() {
    for chart in unordered::charts("layers") {
        let others = others(&arrows(&chart));
        assert_eq!(heights(&others).unwrap().into_iter().max(), Some(N / 8), "{chart}");
        assert!(others.iter().all(|ends| ends.len() <= 8), "{chart}");
    }
}

#[test]
fn skips_lead_to_at_most_three_states() {
    for chart in unordered::charts("skips") {
        let others = others(&arrows(&chart));
        assert!(heights(&others).unwrap().into_iter().max() > Some(N / 2), "{chart}");
        assert_eq!(others.iter().map(BTreeSet::len).max(), Some(3), "{chart}");
    }
}

#[test]
fn retry_leads_back() {
    for chart in unordered::charts("retry") {
        assert!(heights(&others(&arrows(&chart))).is_none(), "{chart}");
    }
}

/// Odd labels stand at the one state that leads nowhere else; only in `retry` that one leads back too.
#[test]
fn one_state_ends_the_runs() {
    for family in unordered::NAMES.into_iter().filter(|&family| family != "retry") {
        let chart = families::chart(family, N, 8 * N).unwrap();
        let ends: Vec<usize> = (0..N).filter(|s| word(&chart, 9 + 2 * s) == 0xFFFF).collect();
        let others = others(&arrows_of(&chart));
        let closed: Vec<usize> = (0..N).filter(|&s| others[s].is_empty()).collect();
        assert_eq!(ends, closed, "{family}");
    }
}

/// Of 2,048 arrows about 8 would lead to the next number by chance, and half would start above the one before.
#[test]
fn no_order_shows() {
    for chart in unordered::NAMES.into_iter().flat_map(unordered::charts) {
        let arrows = arrows(&chart);
        let near = arrows.iter().filter(|arrow| arrow.end == arrow.start + 1).count();
        let rising = arrows.windows(2).filter(|pair| pair[0].start < pair[1].start).count();
        assert!(near < 100, "{chart}: {near}");
        assert!((800..1250).contains(&rising), "{chart}: {rising}");
    }
}

#[test]
fn seeds_differ() {
    for family in unordered::NAMES {
        let names = unordered::charts(family);
        let charts: BTreeSet<Vec<u8>> = names.iter().map(|name| families::chart(name, N, 8 * N).unwrap()).collect();
        assert_eq!((names.len(), charts.len()), (3, 3), "{family}");
    }
}
