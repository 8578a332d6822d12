//! Refusals 60, 61 and 62, and that check's own come first.

use crate::make::{chart, l0_l1, label, one, rule, short, true_l2, true_true, A, AT_LEAST, AT_MOST, E, TRUE};
use crate::show_call::{call, with_room};

fn refused_60(chart: &[u8], rule: &[u8], node: usize, state: usize) {
    assert_eq!(with_room(chart, rule, node, state).answer, (60, 0, 3, 0), "{node} {state}");
}

#[test]
fn out_of_range() {
    let rule = true_l2(E, AT_MOST, 5);
    for (node, state) in [(3, 0), (2, 3), (64, 0), (2, 256), (usize::MAX, 0), (2, usize::MAX), (usize::MAX, usize::MAX)]
    {
        refused_60(&short(), &rule, node, state);
    }
}

#[test]
fn no_until() {
    let nodes = [TRUE, label(2), (E, AT_MOST, 0, 1, 5), (2, 0, 2, 0, 0), TRUE, (3, 0, 3, 4, 0)];
    for node in [0, 1, 3, 4, 5] {
        (0..3).for_each(|state| refused_60(&short(), &rule(&nodes), node, state));
    }
    assert_eq!(with_room(&short(), &rule(&nodes), 2, 0).answer.0, 0);
}

/// An unmarked E, a marked A, and an A bounded by "at least", marked or not.
#[test]
fn not_such_a_mark() {
    refused_60(&short(), &true_l2(E, AT_MOST, 4), 2, 0);
    refused_60(&short(), &true_l2(A, AT_MOST, 14), 2, 0);
    refused_60(&short(), &true_l2(A, AT_LEAST, 65_535), 2, 0);
    let held = chart(&[3], &[[0, 0, 1, 1]]);
    refused_60(&held, &l0_l1(A, AT_LEAST, 3), 2, 0);
    let unheld = chart(&[0], &[[0, 0, 1, 1]]);
    refused_60(&unheld, &l0_l1(A, AT_LEAST, 3), 2, 0);
    refused_60(&unheld, &l0_l1(E, AT_LEAST, 3), 2, 0);
}

#[test]
fn scratch_short() {
    let rule = true_l2(E, AT_MOST, 5);
    let (of_check, of_show, shown) = ((18, 0, 5, 0), (61, 0, 5, 0), (0, 0, 0, 18));
    for (scratch, answer) in [(0, of_check), (11, of_check), (12, of_show), (770, of_show), (771, shown), (772, shown)]
    {
        assert_eq!(call(&short(), &rule, 2, 0, [9, scratch, 18]).answer, answer, "{scratch}");
    }
}

#[test]
fn one_byte_short() {
    let rule = true_l2(E, AT_MOST, 5);
    let (refused, shown) = ((62, 0, 5, 0), (0, 0, 0, 18));
    for (output, answer) in [(0, refused), (6, refused), (17, refused), (18, shown), (19, shown)] {
        assert_eq!(call(&short(), &rule, 2, 0, [9, 771, output]).answer, answer, "{output}");
    }
    assert_eq!(call(&short(), &rule, 2, 2, [9, 771, 5]).answer, (62, 0, 5, 0));
    assert_eq!(call(&short(), &rule, 2, 2, [9, 771, 6]).answer, (0, 0, 0, 6));
}

/// 256 steps fit 1,542 bytes; 257 are too many for any output.
#[test]
fn the_most_steps() {
    let room = |output| [3, 257, output];
    assert_eq!(call(&one(), &true_true(E, AT_LEAST, 256), 2, 0, room(1_541)).answer, (62, 0, 5, 0));
    assert_eq!(call(&one(), &true_true(E, AT_LEAST, 256), 2, 0, room(1_542)).answer, (0, 0, 0, 1_542));
    assert_eq!(call(&one(), &true_true(E, AT_LEAST, 257), 2, 0, room(99_999)).answer, (62, 0, 5, 0));
    let p_alone = chart(&[1], &[[0, 0, 1, 1]]);
    assert_eq!(call(&p_alone, &l0_l1(A, AT_MOST, 255), 2, 0, room(1_542)).answer, (0, 0, 0, 1_542));
    assert_eq!(call(&p_alone, &l0_l1(A, AT_MOST, 256), 2, 0, room(99_999)).answer, (62, 0, 5, 0));
}

/// What isn't lent enough is refused in this order: check's own, the mark, the scratch, the output.
#[test]
fn order() {
    let (marked, unmarked) = (true_l2(E, AT_MOST, 5), true_l2(E, AT_MOST, 4));
    let looped = chart(&[0; 3], &[[0, 1, 0, 0], [1, 0, 0, 0], [2, 2, 1, 1]]);
    assert_eq!(call(&[], &[], 9, 9, [0, 0, 0]).answer, (1, 0, 1, 0));
    assert_eq!(call(&short(), &[], 9, 9, [0, 0, 0]).answer, (10, 0, 3, 0));
    assert_eq!(call(&short(), &unmarked, 9, 9, [8, 0, 0]).answer, (17, 0, 5, 0));
    assert_eq!(call(&short(), &unmarked, 9, 9, [9, 11, 0]).answer, (18, 0, 5, 0));
    assert_eq!(call(&looped, &marked, 9, 9, [9, 12, 0]).answer, (19, 0, 1, 0));
    assert_eq!(call(&short(), &unmarked, 2, 0, [9, 12, 0]).answer, (60, 0, 3, 0));
    assert_eq!(call(&short(), &marked, 2, 0, [9, 12, 0]).answer, (61, 0, 5, 0));
    assert_eq!(call(&short(), &marked, 2, 0, [9, 771, 0]).answer, (62, 0, 5, 0));
}
