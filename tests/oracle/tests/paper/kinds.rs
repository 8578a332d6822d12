//! Kind of rule.

use crate::make::{label, not, rule, NodeFields, TRUE};
use oracle::{kind_of_rule, Kind};

fn kind(nodes: &[NodeFields]) -> Kind {
    let answer = kind_of_rule(&rule(nodes));
    assert_eq!((answer.outcome.number, answer.outcome.place), (0, 0));
    answer.kind
}

const E01: NodeFields = (5, 1, 0, 1, 9);
const A01: NodeFields = (6, 2, 0, 1, 9);

#[test]
fn true_and_labels_are_both() {
    assert_eq!(kind(&[TRUE]), Kind::Both);
    assert_eq!(kind(&[label(15)]), Kind::Both);
    assert_eq!(kind(&[label(3), not(0)]), Kind::Both);
    assert_eq!(kind(&[label(3), TRUE, (4, 0, 0, 1, 0)]), Kind::Both);
}

#[test]
fn untils() {
    assert_eq!(kind(&[TRUE, TRUE, A01]), Kind::AllRuns);
    assert_eq!(kind(&[TRUE, TRUE, E01]), Kind::SomeRun);
    assert_eq!(kind(&[TRUE, TRUE, A01, TRUE, (6, 1, 2, 3, 0)]), Kind::AllRuns);
    assert_eq!(kind(&[TRUE, TRUE, E01, TRUE, (5, 1, 3, 2, 0)]), Kind::SomeRun);
    assert_eq!(kind(&[TRUE, TRUE, E01, TRUE, (6, 1, 2, 3, 0)]), Kind::Neither);
    assert_eq!(kind(&[TRUE, TRUE, A01, TRUE, (5, 1, 3, 2, 0)]), Kind::Neither);
}

/// Of both untils with every bound.
#[test]
fn the_bound_plays_no_part() {
    for bound in 1..=3 {
        let until = |operation, a, b| (operation, bound, a, b, 9);
        assert_eq!(kind(&[TRUE, TRUE, until(6, 0, 1)]), Kind::AllRuns);
        assert_eq!(kind(&[TRUE, TRUE, until(5, 0, 1)]), Kind::SomeRun);
        assert_eq!(kind(&[TRUE, TRUE, until(5, 0, 1), TRUE, until(6, 2, 3)]), Kind::Neither);
        assert_eq!(kind(&[TRUE, TRUE, until(5, 0, 1), not(2), TRUE, until(6, 3, 4)]), Kind::AllRuns);
    }
}

#[test]
fn not_exchanges_the_kinds() {
    assert_eq!(kind(&[TRUE, TRUE, A01, not(2)]), Kind::SomeRun);
    assert_eq!(kind(&[TRUE, TRUE, E01, not(2)]), Kind::AllRuns);
    assert_eq!(kind(&[TRUE, TRUE, E01, not(2), TRUE, (6, 1, 3, 4, 0)]), Kind::AllRuns);
    assert_eq!(kind(&[TRUE, TRUE, A01, TRUE, (5, 1, 3, 2, 0), not(4)]), Kind::Neither);
}

#[test]
fn and_or_need_both_operands() {
    let a_and_e = [TRUE, TRUE, A01, TRUE, TRUE, (5, 1, 3, 4, 9), (3, 0, 2, 5, 0)];
    assert_eq!(kind(&a_and_e), Kind::Neither);
    assert_eq!(kind(&[TRUE, TRUE, A01, TRUE, (3, 0, 2, 3, 0)]), Kind::AllRuns);
    assert_eq!(kind(&[TRUE, TRUE, E01, TRUE, (4, 0, 3, 2, 0)]), Kind::SomeRun);
}
