//! The text of desk_why, and its judge.

use crate::make::{chart, l0_l1, one, short, true_l2, true_true, A, AT_LEAST, AT_MOST, E, NO_END};
use oracle::{judge_why, why_text};

const SHORT_WITHIN_5: &str = "0 at 0: 5 minutes to 1\n1 at 5: 0 minutes to 2\n2 at 5: until met at 5\n";

fn right(chart: &[u8], rule: &[u8], state: usize, text: &str) {
    assert_eq!(judge_why(chart, rule, 2, state, text), Ok(()));
}

/// The oracle's own text is this one, and right.
fn own(chart: &[u8], rule: &[u8], state: usize, text: &str) {
    assert_eq!(why_text(chart, rule, 2, state), text);
    right(chart, rule, state, text);
}

#[test]
fn an_e_until() {
    own(&short(), &true_l2(E, AT_MOST, 5), 0, SHORT_WITHIN_5);
    own(&short(), &true_l2(E, AT_MOST, 5), 2, "2 at 0: until met at 0\n");
    own(&one(), &true_true(E, AT_LEAST, 1), 0, "0 at 0: 1 minutes to 0\n0 at 1: until met at 1\n");
}

/// Above c is told first.
#[test]
fn an_a_until() {
    let late = "0 at 0: 10 minutes to 1\n1 at 10: 4 minutes to 2\n2 at 14: above 13\n";
    own(&short(), &true_l2(A, AT_MOST, 13), 0, late);
    let neither = chart(&[1, 0], &[[0, 1, 6, 7], [1, 1, 1, 1]]);
    own(&neither, &l0_l1(A, AT_MOST, 5), 1, "1 at 0: neither operand\n");
    right(&neither, &l0_l1(A, AT_MOST, 5), 0, "0 at 0: 6 minutes to 1\n1 at 6: above 5\n");
    right(&neither, &l0_l1(A, AT_MOST, 5), 0, "0 at 0: 7 minutes to 1\n1 at 7: above 5\n");
    right(&neither, &l0_l1(A, AT_MOST, 6), 0, "0 at 0: 6 minutes to 1\n1 at 6: neither operand\n");
    right(&neither, &l0_l1(A, AT_MOST, 6), 0, "0 at 0: 7 minutes to 1\n1 at 7: above 6\n");
}

#[test]
fn no_end() {
    let chart = chart(&[1, 2], &[[0, 1, 0, NO_END], [1, 0, 1, 1]]);
    let rule = l0_l1(A, AT_MOST, 65_535);
    own(&chart, &rule, 0, "0 at 0: 65536 minutes to 1\n1 at 65536: above 65535\n");
    right(&chart, &rule, 0, "0 at 0: 4294967295 minutes to 1\n1 at 4294967295: above 65535\n");
    let beyond = "0 at 0: 4294967296 minutes to 1\n1 at 4294967296: above 65535\n";
    assert!(judge_why(&chart, &rule, 2, 0, beyond).is_err());
}

#[test]
fn refusals() {
    own(&[], &[], 0, "refused 1 at 0 1\n");
    own(&short(), &[], 0, "refused 10 at 0 3\n");
    own(&short(), &true_l2(E, AT_MOST, 4), 0, "refused 60 at 0 3\n");
    own(&short(), &true_l2(E, AT_MOST, 5), 3, "refused 60 at 0 3\n");
    own(&one(), &true_true(E, AT_LEAST, 257), 0, "refused 62 at 0 5\n");
    own(&chart(&[0], &[[0, 0, 0, 0]]), &true_true(E, AT_MOST, 0), 0, "refused 19 at 0 1\n");
    for wrong in ["refused 61 at 0 3\n", "refused 60 at 1 3\n", "refused 60 at 0 5\n", "refused 60 at 0\n"] {
        assert!(judge_why(&short(), &true_l2(E, AT_MOST, 4), 2, 0, wrong).is_err(), "{wrong}");
    }
    assert!(judge_why(&short(), &true_l2(E, AT_MOST, 4), 2, 0, SHORT_WITHIN_5).is_err());
}

#[test]
fn the_longest_text() {
    let text = why_text(&one(), &true_true(E, AT_LEAST, 256), 2, 0);
    assert_eq!(text.lines().count(), 257);
    assert_eq!(text.lines().last(), Some("0 at 256: until met at 256"));
    right(&one(), &true_true(E, AT_LEAST, 256), 0, &text);
}

#[test]
fn wrong_texts() {
    for text in [
        "",
        "\n",
        "refused 60 at 0 3\n",
        "0 at 0: 5 minutes to 1\n1 at 5: 0 minutes to 2\n2 at 5: until met at 5",
        "0 at 0: 5 minutes to 1\n1 at 5: 0 minutes to 2\n2 at 5: until met at 5\n\n",
        "0 at 0: 5 minutes to 1\r\n1 at 5: 0 minutes to 2\r\n2 at 5: until met at 5\r\n",
        "0 at 0: 05 minutes to 1\n1 at 5: 0 minutes to 2\n2 at 5: until met at 5\n",
        "0 at 0: +5 minutes to 1\n1 at 5: 0 minutes to 2\n2 at 5: until met at 5\n",
        "0 at 0: 5 minutes to 2\n1 at 5: 0 minutes to 2\n2 at 5: until met at 5\n",
        "0 at 0: 5 minutes to 1\n1 at 6: 0 minutes to 2\n2 at 5: until met at 5\n",
        "0 at 0: 5 minutes to 1\n1 at 5: 0 minutes to 2\n2 at 5: until met at 4\n",
        "0 at 0: 5 minutes to 1\n1 at 5: 0 minutes to 2\n2 at 5: above 5\n",
        "0 at 0: 5 minutes to 1\n1 at 5: 0 minutes to 2\n2 at 5: 0 minutes to 2\n",
        "0 at 0: 5 minutes to 1\n1 at 5: until met at 5\n2 at 5: until met at 5\n",
        "0 at 0: 5 minutes to 1\n1 at 5: 0 minutes to 2\n",
        "0 at 0: 5 minutes to 1\n1 at 5: 1 minutes to 2\n2 at 6: until met at 6\n",
        "1 at 0: 0 minutes to 2\n2 at 0: until met at 0\n",
        "0 at 0: x minutes to 1\n1 at 5: 0 minutes to 2\n2 at 5: until met at 5\n",
        "refused 0 at 0 0\n0 at 0: 5 minutes to 1\n1 at 5: 0 minutes to 2\n2 at 5: until met at 5\n",
    ] {
        assert!(judge_why(&short(), &true_l2(E, AT_MOST, 5), 2, 0, text).is_err(), "{text:?}");
    }
}

/// A true run, but not of the fewest steps.
#[test]
fn more_steps_than_needed() {
    let rule = true_l2(E, AT_MOST, 40);
    right(&short(), &rule, 0, "0 at 0: 6 minutes to 1\n1 at 6: 2 minutes to 2\n2 at 8: until met at 8\n");
    let longer = "0 at 0: 5 minutes to 1\n1 at 5: 0 minutes to 2\n2 at 5: 20 minutes to 0\n\
                  0 at 25: 5 minutes to 1\n1 at 30: 0 minutes to 2\n2 at 30: until met at 30\n";
    let wrong = judge_why(&short(), &rule, 2, 0, longer).expect_err("five steps");
    assert!(wrong.contains("5 steps, the fewest are 2"), "{wrong}");
}
