//! The inputs of count are as large as is claimed, tell states apart, and have the slots that they are made for.

use crate::common::{arrows_of, call, word};
use bench::bytes::{Arrow, NO_END};
use bench::counted;

const N: usize = 256;

fn chart(name: &str) -> Vec<u8> {
    counted::chart(name).expect(name)
}

#[test]
fn charts_and_rules_have_their_sizes() {
    for (chart_name, rule_name) in counted::rows() {
        let (chart, rule) = (chart(chart_name), counted::rule(&rule_name).expect(&rule_name));
        assert_eq!((word(&chart, 5), word(&chart, 7), word(&rule, 5)), (256, 2048, 64));
        let bounds: Vec<u16> = rule[7..].chunks(8).filter(|node| node[0] >= 5).map(|node| word(node, 6)).collect();
        let c: u16 = rule_name.rsplit('-').next().unwrap().parse().unwrap();
        assert_eq!(bounds, [c; 31], "{rule_name}");
    }
}

/// Of the states how many each until of the rule marks.
fn marked(chart: &[u8], rule: &[u8]) -> Vec<usize> {
    let marks = call(chart, rule, 64 * N, 4 * N).marks;
    let untils = rule[7..].chunks(8).zip(marks.chunks(N)).filter(|(node, _)| node[0] >= 5);
    untils.map(|(_, row)| row.iter().filter(|&&mark| mark == 1).count()).collect()
}

/// A row that is all the same might be filled with less work than a rule takes that was worth asking.
#[test]
fn every_until_tells_states_apart() {
    for (chart_name, rule) in counted::rows() {
        let marked = marked(&chart(chart_name), &counted::rule(&rule).expect(&rule));
        assert!(marked.iter().all(|&count| (12..=N - 4).contains(&count)), "{chart_name} {rule}: {marked:?}");
    }
}

#[test]
fn slots_are_as_named() {
    assert!(arrows_of(&chart("parts-short")).iter().all(|arrow| 1 <= arrow.fewest && arrow.most <= 10));
    let wide = arrows_of(&chart("parts-wide"));
    let width = |arrow: &Arrow| u64::from(arrow.most - arrow.fewest);
    let ended = wide.iter().filter(|arrow| arrow.most != NO_END);
    assert!(ended.clone().map(width).sum::<u64>() / ended.count() as u64 > 90);
    assert!((150..400).contains(&wide.iter().filter(|arrow| arrow.most == NO_END).count()));
}

#[test]
fn about_a_quarter_takes_no_time() {
    let instant = arrows_of(&chart("instant"));
    assert!((460..=512).contains(&instant.iter().filter(|arrow| arrow.fewest == 0).count()));
    assert!(instant.iter().all(|arrow| arrow.fewest > 0 || arrow.most == 0));
}

/// How many rounds over the arrows it takes until no more states lead to these by arrows of no time.
fn rounds<'a>(arrows: impl Iterator<Item = &'a Arrow> + Clone, end: usize) -> usize {
    let mut leads = [false; N];
    leads[end] = true;
    for round in 0.. {
        let mut changed = false;
        for arrow in arrows.clone().filter(|arrow| arrow.most == 0) {
            let (start, end) = (usize::from(arrow.start), usize::from(arrow.end));
            changed |= leads[end] && !leads[start];
            leads[start] |= leads[end];
        }
        if !changed {
            return round;
        }
    }
    unreachable!()
}

#[test]
fn rounds_are_many_in_either_direction() {
    let arrows = arrows_of(&chart("instant"));
    // The ends of the rows are where one may wait a minute.
    let ends = arrows.iter().filter(|arrow| arrow.start == arrow.end && (arrow.fewest, arrow.most) == (1, 1));
    let mut ends: Vec<usize> = ends.map(|arrow| usize::from(arrow.end)).collect();
    ends.sort();
    ends.dedup();
    assert_eq!(ends.len(), 4);
    for end in ends {
        assert!(rounds(arrows.iter(), end) >= 27);
        assert!(rounds(arrows.iter().rev(), end) >= 27);
    }
}
