//! The marks of count.

use crate::make::{chart, l0_l1, one, rule, short, true_l2, true_true, A, AT_LEAST, AT_MOST, E, NO_END, TRUE};
use oracle::{count, counted_listing, listing};

/// Marks of the last node, states in order.
fn last_marks(chart: &[u8], rule: &[u8]) -> Vec<u8> {
    let (n, k) = (usize::from(chart[6]), usize::from(rule[6]));
    let mut marks = vec![7; n * k];
    assert_eq!(count(chart, rule, &mut marks, &mut vec![9; 256 * n]).number, 0);
    marks.split_off(n * (k - 1))
}

#[test]
fn the_listing() {
    for c in [0, 13, 255] {
        let rule = true_l2(A, AT_MOST, c);
        assert_eq!(counted_listing(&short(), &rule), listing(&short(), &rule));
    }
    assert_eq!(counted_listing(&short(), &true_l2(A, AT_MOST, 13)), "states 3 nodes 3\n0 111\n1 001\n2 011\n");
    assert_eq!(counted_listing(&short(), &true_l2(A, AT_MOST, 256)), "refused 63 at 2 3\n");
}

/// 255 minutes are the last that can be waited for, and 256 are beyond them.
#[test]
fn the_greatest_bound() {
    for (slot, marks) in [([254, 255], [1, 1]), ([255, 256], [0, 1]), ([255, NO_END], [0, 1]), ([256, 256], [0, 1])] {
        let chart = chart(&[0, 4], &[[0, 1, slot[0], slot[1]], [1, 0, 1, 1]]);
        assert_eq!(last_marks(&chart, &true_l2(A, AT_MOST, 255)), marks, "{slot:?}");
    }
    for (slot, marks) in [([254, 254], [0, 0]), ([254, 255], [1, 0]), ([1, NO_END], [1, 0]), ([256, 300], [1, 0])] {
        let chart = chart(&[1, 2], &[[0, 1, slot[0], slot[1]], [1, 1, 1, 1]]);
        assert_eq!(last_marks(&chart, &l0_l1(E, AT_LEAST, 255)), marks, "{slot:?}");
    }
}

/// Three states in one minute, each later one numbered lower and higher.
#[test]
fn arrows_of_0_minutes_stay_within_the_minute() {
    for order in [[0, 1, 2], [2, 1, 0], [1, 2, 0], [2, 0, 1]] {
        let [first, second, third] = order;
        let mut labels = [0; 3];
        labels[usize::from(third)] = 4;
        let arrows = [[first, second, 0, 0], [second, third, 0, 1], [third, third, 1, 1]];
        let chart = chart(&labels, &arrows);
        assert_eq!(last_marks(&chart, &true_l2(E, AT_MOST, 0)), [1, 1, 1]);
        let within_0 = last_marks(&chart, &true_l2(A, AT_MOST, 0));
        assert_eq!(order.map(|state| within_0[usize::from(state)]), [0, 0, 1]);
        assert_eq!(last_marks(&chart, &true_l2(A, AT_MOST, 1)), [1, 1, 1]);
    }
}

/// A run may wait at 0 for ever, and none may where 0 must be left; Q at 1 is too early while minutes are left.
#[test]
fn waiting_without_a_bound() {
    let stays = chart(&[1, 2], &[[0, 0, 1, 1], [0, 1, 1, 1], [1, 1, 1, 1]]);
    let leaves = chart(&[1, 2], &[[0, 1, 1, 1], [1, 1, 1, 1]]);
    let both = chart(&[1, 3], &[[0, 1, 1, 1], [1, 1, 1, 1]]);
    for (chart, c, marks) in [
        (&stays, 0, [0, 1]),
        (&stays, 1, [0, 0]),
        (&leaves, 0, [1, 1]),
        (&leaves, 1, [1, 0]),
        (&leaves, 2, [0, 0]),
        (&both, 2, [1, 1]),
        (&both, 255, [1, 1]),
    ] {
        assert_eq!(last_marks(chart, &l0_l1(A, AT_LEAST, c)), marks, "{c}");
    }
    assert_eq!(last_marks(&stays, &l0_l1(E, AT_LEAST, 2)), [1, 0]);
}

#[test]
fn smallest() {
    assert_eq!(last_marks(&one(), &rule(&[TRUE])), [1]);
    assert_eq!(last_marks(&one(), &true_true(E, AT_LEAST, 255)), [1]);
    assert_eq!(last_marks(&one(), &true_true(A, AT_LEAST, 255)), [1]);
    assert_eq!(last_marks(&one(), &true_l2(A, AT_LEAST, 0)), [0]);
}
