//! Runs that show writes out.

use crate::make::{chart, l0_l1, label, not, one, rule, short, true_l2, true_true, undo};
use crate::make::{A, AT_LEAST, AT_MOST, E, NO_END, TRUE};
use crate::show_call::{run_of, with_room};
use oracle::fewest_steps;

#[test]
fn short_within_5() {
    let called = with_room(&short(), &true_l2(E, AT_MOST, 5), 2, 0);
    assert_eq!(called.answer, (0, 0, 0, 18));
    assert_eq!(called.output[..18], [0, 0, 0, 0, 0, 5, 0, 1, 0, 0, 0, 0, 0, 2, 0, 0, 0, 0]);
}

/// Only the moment tells that L2 comes too late; the state itself is the one that was waited for.
#[test]
fn short_not_always_within_13() {
    let run = run_of(&short(), &true_l2(A, AT_MOST, 13), 2, 0);
    assert_eq!(run, [(0, 10), (1, 4), (2, 0)]);
}

/// The last state is any state if its moment is above c: Q holds there, P alone, or neither.
#[test]
fn above_c_at_any_state() {
    for labels in 0..4 {
        let chart = chart(&[1, labels], &[[0, 1, 3, 6], [1, 1, 1, 1]]);
        let run = run_of(&chart, &l0_l1(A, AT_MOST, 5), 2, 0);
        let duration = run[0].1;
        assert_eq!((run.len(), run[0].0, run[1]), (2, 0, (1, 0)), "{labels}");
        assert!(if labels == 0 { duration >= 3 } else { duration == 6 }, "{labels}");
    }
}

/// State 1 has Q and not P: there the until is met in time, so the reason goes by state 2, where neither holds.
#[test]
fn q_without_p_in_time_is_met() {
    let labels = [1, 2, 0];
    let rule = l0_l1(A, AT_MOST, 5);
    let both = chart(&labels, &[[0, 1, 1, 1], [0, 0, 1, 1], [0, 2, 1, 1], [1, 2, 1, 1], [2, 2, 1, 1]]);
    assert_eq!(run_of(&both, &rule, 2, 0), [(0, 1), (2, 0)]);
    assert_eq!(with_room(&both, &rule, 2, 1).answer, (60, 0, 3, 0));
    let only_q = chart(&labels, &[[0, 1, 1, 1], [1, 2, 1, 1], [2, 2, 1, 1]]);
    assert_eq!(with_room(&only_q, &rule, 2, 0).answer, (60, 0, 3, 0));
}

/// One step of 5 minutes, not two of none.
#[test]
fn fewest_steps_not_minutes() {
    let chart = chart(&[0, 2, 0], &[[0, 1, 5, 5], [0, 2, 0, 0], [2, 1, 0, 0], [1, 1, 1, 1]]);
    let rule = rule(&[TRUE, label(1), (E, AT_MOST, 0, 1, 5)]);
    assert_eq!(run_of(&chart, &rule, 2, 0), [(0, 5), (1, 0)]);
}

/// The one step is too slow for the bound here, so two are the fewest.
#[test]
fn the_bound_decides_which_steps_count() {
    let chart = chart(&[0, 2, 0], &[[0, 1, 5, 5], [0, 2, 0, 0], [2, 1, 0, 0], [1, 1, 1, 1]]);
    let rule = rule(&[TRUE, label(1), (E, AT_MOST, 0, 1, 4)]);
    assert_eq!(run_of(&chart, &rule, 2, 0), [(0, 0), (2, 0), (1, 0)]);
}

/// Through a state where Q holds too early.
#[test]
fn at_least_passes_q() {
    let chart = chart(&[1, 3, 2], &[[0, 1, 1, 1], [1, 2, 2, 9], [2, 2, 1, 1]]);
    assert_eq!(run_of(&chart, &l0_l1(E, AT_LEAST, 1), 2, 0), [(0, 1), (1, 0)]);
    let run = run_of(&chart, &l0_l1(E, AT_LEAST, 4), 2, 0);
    assert_eq!((run.len(), run[1].0, run[2]), (3, 1, (2, 0)));
}

/// At least 15 in Undo: back and forth, each step as long as it may be.
#[test]
fn undo_at_least_15() {
    let nodes = [label(2), not(0), label(2), (E, AT_LEAST, 1, 2, 15)];
    assert_eq!(fewest_steps(&undo(), &rule(&nodes), 3, 0), Some(4));
    assert_eq!(fewest_steps(&undo(), &rule(&nodes), 3, 1), Some(3));
    assert_eq!(fewest_steps(&undo(), &rule(&nodes), 3, 2), None);
}

/// 65,536 minutes are among "no end", though no field of a chart can state them.
#[test]
fn no_end_passes_the_greatest_bound() {
    let chart = chart(&[1, 2], &[[0, 1, 0, NO_END], [1, 0, 1, 1]]);
    let run = run_of(&chart, &l0_l1(A, AT_MOST, 65_535), 2, 0);
    assert_eq!(run, [(0, 65_536), (1, 0)]);
    let run = run_of(&chart, &l0_l1(E, AT_LEAST, 65_535), 2, 0);
    assert!(run.len() == 2 && run[0].1 >= 65_535 && run[1] == (1, 0));
}

/// Met, or not to be met any more, where the run starts.
#[test]
fn runs_without_a_step() {
    for (rule, labels) in [
        (l0_l1(E, AT_MOST, 0), 2),
        (l0_l1(E, AT_MOST, 9), 3),
        (l0_l1(E, AT_LEAST, 0), 2),
        (l0_l1(A, AT_MOST, 0), 0),
        (l0_l1(A, AT_MOST, 65_535), 0),
    ] {
        let called = with_room(&chart(&[labels], &[[0, 0, 1, 1]]), &rule, 2, 0);
        assert_eq!((called.answer, &called.output[..7]), ((0, 0, 0, 6), [0, 0, 0, 0, 0, 0, 5].as_slice()));
    }
}

#[test]
fn the_longest_run() {
    let called = with_room(&one(), &true_true(E, AT_LEAST, 256), 2, 0);
    assert_eq!(called.answer, (0, 0, 0, 1_542));
    assert_eq!(run_of(&one(), &true_true(E, AT_LEAST, 256), 2, 0), [vec![(0, 1); 256], vec![(0, 0)]].concat());
    for c in [257, 65_535] {
        assert_eq!(fewest_steps(&one(), &true_true(E, AT_LEAST, c), 2, 0), Some(usize::from(c)));
        assert_eq!(with_room(&one(), &true_true(E, AT_LEAST, c), 2, 0).answer, (62, 0, 5, 0));
    }
}

/// Above the cap the minutes are no more told apart, but P and Q go on to count.
#[test]
fn steps_beyond_the_bound() {
    let chart = chart(&[1, 1, 1, 2], &[[0, 1, 7, 9], [1, 2, 3, NO_END], [2, 3, 4, 4], [3, 3, 1, 1]]);
    let run = run_of(&chart, &l0_l1(E, AT_LEAST, 2), 2, 0);
    assert_eq!(run.iter().map(|at| at.0).collect::<Vec<_>>(), [0, 1, 2, 3]);
}

/// An inner node is asked for like the last one.
#[test]
fn an_inner_node() {
    let nodes = [TRUE, label(2), (E, AT_MOST, 0, 1, 5), not(2)];
    assert_eq!(run_of(&short(), &rule(&nodes), 2, 1), [(1, 0), (2, 0)]);
}
