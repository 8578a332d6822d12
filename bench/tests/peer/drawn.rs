//! The drawn charts and rules are accepted, differ, and have the variety that they are drawn for.

use crate::common::{arrows_of, outcome, word};
use bench::bytes::{Arrow, NO_END};
use bench::drawn;
use std::collections::BTreeSet;

const SEEDS: std::ops::Range<u64> = 0..1_000;

#[test]
fn a_thousand_seeds_are_accepted_and_differ() {
    let mut charts = BTreeSet::new();
    for seed in SEEDS {
        let (chart, rule) = (drawn::chart(seed), drawn::rule(seed));
        assert_eq!(outcome(&chart, &rule), (0, 0, 0), "{seed}");
        assert!(word(&chart, 5) >= 2);
        charts.insert(chart);
    }
    assert_eq!(charts.len(), 1_000);
}

/// How many of the seeds' charts it holds for.
fn charts_with(holds: impl Fn(&[u8], &[Arrow]) -> bool) -> usize {
    let with = |&seed: &u64| {
        let chart = drawn::chart(seed);
        holds(&chart, &arrows_of(&chart))
    };
    SEEDS.filter(with).count()
}

/// Some of the hurried ones have a state from which time can't pass; all of them have the arrows of their seed.
#[test]
fn hurried_charts_are_accepted_or_refused_by_19() {
    let mut refused = 0;
    for seed in SEEDS {
        let (chart, hurried) = (drawn::chart(seed), drawn::hurried(seed));
        let number = outcome(&hurried, &drawn::rule(seed)).0;
        assert!([0, 19].contains(&number), "{seed}");
        refused += usize::from(number == 19);
        let ends = |chart: &[u8]| arrows_of(chart).iter().map(|a| (a.start, a.end)).collect::<Vec<_>>();
        assert_eq!(ends(&chart), ends(&hurried), "{seed}");
    }
    assert!((50..300).contains(&refused), "{refused}");
}

fn leads_back(arrow: &Arrow) -> bool {
    arrow.end < arrow.start
}

#[test]
fn charts_are_varied() {
    let many = 50..950;
    assert!(many.contains(&charts_with(|chart, _| word(chart, 5) <= 16)));
    assert!(many.contains(&charts_with(|chart, _| word(chart, 5) > 128)));
    assert!(many.contains(&charts_with(|_, arrows| arrows.len() > 1_000)));
    assert!(many.contains(&charts_with(|_, arrows| arrows.iter().any(|arrow| arrow.most == NO_END))));
    assert!(many.contains(&charts_with(|_, arrows| arrows.iter().any(|arrow| arrow.fewest == 0))));
    assert!(many.contains(&charts_with(|_, arrows| arrows.iter().any(|arrow| arrow.start == arrow.end))));
    assert!(many.contains(&charts_with(|_, arrows| arrows.iter().any(|a| a.fewest == 0 && leads_back(a)))));
    assert!(many.contains(&charts_with(|_, arrows| arrows.windows(2).all(|pair| pair[0].start <= pair[1].start))));
}

#[test]
fn rules_have_every_form_and_size() {
    let (mut forms, mut sizes) = (BTreeSet::new(), BTreeSet::new());
    for rule in SEEDS.map(drawn::rule) {
        sizes.insert(word(&rule, 5));
        forms.extend(rule[7..].chunks(8).map(|node| (node[0], node[1])));
    }
    assert!(sizes.into_iter().eq(1..=64));
    let plain = (0..5).map(|operation| (operation, 0));
    let untils = [(5, 1), (5, 2), (6, 1), (6, 2)];
    assert!(forms.into_iter().eq(plain.chain(untils)));
}
