//! The inputs of exact bounds are as large as is claimed, have twins that differ in the kind of their bounds alone, and E
//! tells states apart on all of them, A on the one where no run leaves a minute out.

use crate::common::{call, word};
use bench::exact::{self, made_exact, Row};
use bench::{counted, drawn, families};

const N: usize = 256;

fn chart(row: &Row) -> Vec<u8> {
    counted::chart(row.chart).or_else(|| families::chart(row.chart, N, 8 * N)).expect(row.chart)
}

/// The untils of a rule's bytes, each with its marks.
fn untils<'a>(rule: &'a [u8], marks: &'a [u8]) -> impl Iterator<Item = (&'a [u8], &'a [u8])> {
    rule[7..].chunks(8).zip(marks.chunks(N)).filter(|(node, _)| node[0] >= 5)
}

#[test]
fn charts_and_rules_have_their_sizes() {
    for row in exact::rows() {
        let (chart, rule) = (chart(&row), counted::rule(&row.exact).expect(&row.exact));
        assert_eq!((word(&chart, 5), word(&chart, 7), word(&rule, 5)), (256, 2048, 64));
        let bounds: Vec<(u8, u16)> = untils(&rule, &[0; 64 * N]).map(|(node, _)| (node[1], word(node, 6))).collect();
        assert_eq!(bounds, [(3, 255); 31], "{}", row.exact);
    }
}

#[test]
fn the_twins_differ_in_the_kind_alone() {
    for row in exact::rows() {
        let exact = counted::rule(&row.exact).expect(&row.exact);
        for (twin, kind) in [(&row.most, 1), (&row.least, 2)] {
            let twin = counted::rule(twin).expect(twin);
            let differ: Vec<(u8, u8)> = exact.iter().copied().zip(twin).filter(|(a, b)| a != b).collect();
            assert_eq!(differ, [(3, kind); 31], "{}", row.exact);
        }
    }
}

/// Of the states how many each until of a row's rule marks, the outermost left out, with its operation.
fn marked(row: &Row) -> Vec<(u8, usize)> {
    let rule = counted::rule(&row.exact).expect(&row.exact);
    let marks = call(&chart(row), &rule, 64 * N, 256 * N).marks;
    let count = |marks: &[u8]| marks.iter().filter(|&&mark| mark == 1).count();
    untils(&rule, &marks).map(|(node, marks)| (node[0], count(marks))).take(30).collect()
}

/// On the other charts some run can always jump over the minute, so that A is marked nowhere.
#[test]
fn untils_tell_states_apart() {
    for row in exact::rows() {
        for (operation, count) in marked(&row) {
            let apart = operation == 5 || row.chart == "parts-minute";
            assert_eq!((12..=N - 4).contains(&count), apart, "{} {}: {count}", row.chart, row.exact);
            assert!(apart || count == 0, "{} {}: {count}", row.chart, row.exact);
        }
    }
}

/// Every other until, whatever its bound was.
#[test]
fn rules_are_made_exact() {
    for rule in (0..200).map(drawn::rule) {
        let made = made_exact(rule.clone());
        let kinds: Vec<(u8, u8)> = untils(&made, &[0; 64 * N]).map(|(node, _)| (node[1], node[6])).collect();
        assert!(kinds.iter().step_by(2).all(|&kind| kind == (3, 0)));
        assert!(kinds.iter().skip(1).step_by(2).all(|&(kind, _)| kind < 3));
        assert_eq!(made.len(), rule.len());
    }
}
