//! The inputs of the benchmark are accepted and have the sizes that are claimed.

use crate::common::{arrows_of, call, outcome, word};
use bench::bytes::Arrow;
use bench::{families, maps, rules, small};

#[test]
fn every_input_is_accepted() {
    for chart_name in families::NAMES.into_iter().flat_map(families::charts) {
        for n in [16, 32, 64, 128, 256] {
            let chart = families::chart(&chart_name, n, 8 * n).unwrap();
            assert_eq!(usize::from(word(&chart, 7)), 8 * n);
            assert!(chart_name == "dense" || usize::from(word(&chart, 5)) == n);
            for rule in rules::NAMES {
                assert_eq!(outcome(&chart, &rules::rule(rule).unwrap()), (0, 0, 0), "{chart_name} {n} {rule}");
            }
        }
    }
}

#[test]
fn every_rule_has_the_most_untils() {
    for name in rules::NAMES {
        let rule = rules::rule(name).unwrap();
        assert_eq!(word(&rule, 5), 64, "{name}");
        assert_eq!(rule[7..].chunks(8).filter(|node| node[0] >= 5).count(), 31, "{name}");
    }
}

#[test]
fn only_known_names_have_a_chart() {
    for name in ["hidden-0", "hidden-1", "hidden-4", "hidden-", "retry2", "chain-2", "small-4", ""] {
        assert!(families::chart(name, 16, 128).is_none(), "{name}");
        assert!(small::chart(name).is_none(), "{name}");
    }
}

/// The number at the end of a name such as `small-3`.
fn number(name: &str) -> u16 {
    name.rsplit('-').next().unwrap().parse().unwrap()
}

#[test]
fn small_inputs_have_the_size_of_their_names() {
    for (chart_name, rule_name) in small::ROWS {
        let (chart, rule) = (small::chart(chart_name).unwrap(), small::rule(rule_name).unwrap());
        assert_eq!(outcome(&chart, &rule), (0, 0, 0), "{chart_name} {rule_name}");
        let (n, m) = (word(&chart, 5), word(&chart, 7));
        assert_eq!((n, word(&rule, 5)), (number(chart_name), number(rule_name)));
        assert!(3 * n <= 2 * m && m <= 3 * n, "{chart_name} has {m} arrows");
    }
}

/// A rule that holds everywhere, or nowhere, might be settled with less work than the rules of a desk.
#[test]
fn small_rules_tell_states_apart() {
    for (chart_name, rule_name) in small::ROWS {
        let (chart, rule) = (small::chart(chart_name).unwrap(), small::rule(rule_name).unwrap());
        let (n, k) = (usize::from(word(&chart, 5)), usize::from(word(&rule, 5)));
        let marks = call(&chart, &rule, k * n, 4 * n).marks;
        let last = &marks[(k - 1) * n..];
        assert!(last.contains(&0) && last.contains(&1), "{chart_name} {rule_name}: {last:?}");
    }
}

#[test]
fn charts_of_the_map_inputs_are_accepted() {
    let rule = rules::rule("far").unwrap();
    for name in maps::NAMES {
        let input = maps::input(name).unwrap();
        for chart in [&input.detail, &input.overview] {
            assert_eq!(word(chart, 7), 2048);
            assert_eq!(outcome(chart, &rule).0, 0, "{name}");
        }
        assert_eq!(word(&input.map, 5), 256);
    }
}

/// The places of the overview arrows that cover each detail arrow, where all states stand for one.
fn covers(name: &str) -> Vec<Vec<usize>> {
    let input = maps::input(name).unwrap();
    let overview = arrows_of(&input.overview);
    let within = |inner: &Arrow, outer: &Arrow| outer.fewest <= inner.fewest && inner.most <= outer.most;
    let places = |arrow: &Arrow| (0..overview.len()).filter(|&i| within(arrow, &overview[i])).collect();
    arrows_of(&input.detail).iter().map(places).collect()
}

/// The way between two places of 2,048 that stand in a ring, by the shorter side.
fn way(a: usize, b: usize) -> usize {
    let on = (a + 2048 - b) % 2048;
    on.min(2048 - on)
}

#[test]
fn one_cover_each_and_far_away() {
    for name in ["reversed", "apart"] {
        assert!(covers(name).iter().all(|places| places.len() == 1), "{name}");
    }
    let places: Vec<usize> = covers("apart").concat();
    assert!((0..2048).all(|i| way(places[i], i) >= 512));
    assert!((1..2048).all(|i| way(places[i], places[i - 1]) >= 511));
}
