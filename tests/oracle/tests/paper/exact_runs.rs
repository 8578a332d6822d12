//! Runs shown for "exactly c": "runs shown for E-until cover kind 3".

use crate::make::{chart, l0_l1, label, one, rule, run, short, true_l2, true_true, undo};
use crate::make::{A, E, EXACTLY, NO_END, TRUE};
use crate::show_call::{call, run_of, with_room};
use oracle::{fewest_steps, judge_run, judge_why, why_text};

#[test]
fn short_at_14() {
    assert_eq!(run_of(&short(), &true_l2(E, EXACTLY, 14), 2, 0), [(0, 10), (1, 4), (2, 0)]);
    assert_eq!(run_of(&short(), &true_l2(E, EXACTLY, 5), 2, 0), [(0, 5), (1, 0), (2, 0)]);
    assert_eq!(run_of(&short(), &true_l2(E, EXACTLY, 0), 2, 2), [(2, 0)]);
    assert_eq!(fewest_steps(&short(), &true_l2(E, EXACTLY, 25), 2, 2), Some(3));
    assert_eq!(fewest_steps(&undo(), &true_l2(E, EXACTLY, 15), 2, 0), Some(4));
}

/// Which of several appears is free; the moment is not.
#[test]
fn any_true_run() {
    let rule = true_l2(E, EXACTLY, 8);
    let judged = |first: u32, second: u32| judge_run(&short(), &rule, 2, 0, &run(&[(0, first), (1, second), (2, 0)]));
    for first in 5..=10 {
        for second in 0..=4 {
            assert_eq!(judged(first, second).is_ok(), first + second == 8, "{first} {second}");
        }
    }
    let wrong = judged(5, 4).expect_err("a minute late");
    assert!(wrong.contains("moment 9 of the last position doesn't meet the bound of 8"), "{wrong}");
}

/// One step of 5 minutes, not two of none; where neither comes to c, the stay at 1 makes up for it.
#[test]
fn fewest_steps_not_minutes() {
    let chart = chart(&[0, 2, 0], &[[0, 1, 5, 5], [0, 2, 0, 0], [2, 1, 0, 0], [1, 1, 1, 1]]);
    let at = |c| rule(&[TRUE, label(1), (E, EXACTLY, 0, 1, c)]);
    assert_eq!(run_of(&chart, &at(5), 2, 0), [(0, 5), (1, 0)]);
    assert_eq!(run_of(&chart, &at(0), 2, 0), [(0, 0), (2, 0), (1, 0)]);
    assert_eq!(run_of(&chart, &at(6), 2, 0), [(0, 5), (1, 1), (1, 0)]);
    assert_eq!(fewest_steps(&chart, &at(4), 2, 0), Some(6));
}

/// Past a position of moment c without Q, and past Q before moment c; P is asked at both.
#[test]
fn earlier_positions() {
    let arrows = [[0, 1, 3, 3], [1, 2, 0, 0], [2, 2, 1, 1]];
    let at_c = chart(&[1, 1, 2], &arrows);
    assert_eq!(run_of(&at_c, &l0_l1(E, EXACTLY, 3), 2, 0), [(0, 3), (1, 0), (2, 0)]);
    let without = chart(&[1, 0, 2], &arrows);
    assert_eq!(with_room(&without, &l0_l1(E, EXACTLY, 3), 2, 0).answer, (60, 0, 3, 0));
    let early = chart(&[3, 3, 2], &[[0, 1, 3, 3], [1, 2, 1, 1], [2, 2, 1, 1]]);
    assert_eq!(run_of(&early, &l0_l1(E, EXACTLY, 4), 2, 0), [(0, 3), (1, 1), (2, 0)]);
    let wrong = judge_run(&early, &l0_l1(E, EXACTLY, 3), 2, 0, &run(&[(0, 3), (1, 1), (2, 0)]));
    assert!(wrong.expect_err("a minute late").contains("moment 4"));
}

/// A run that is judged for another state of the same moment: P doesn't hold at 1.
#[test]
fn p_is_asked_of_a_judged_run() {
    let arrows = [[0, 1, 3, 3], [1, 2, 0, 0], [2, 2, 1, 1], [0, 2, 3, 3]];
    let chart = chart(&[1, 0, 2], &arrows);
    let judged = |positions: &[(u16, u32)]| judge_run(&chart, &l0_l1(E, EXACTLY, 3), 2, 0, &run(positions));
    assert_eq!(judged(&[(0, 3), (2, 0)]), Ok(1));
    assert!(judged(&[(0, 3), (1, 0), (2, 0)]).expect_err("P at 1").contains("P doesn't hold at position 1"));
}

/// "an unmarked A with kind 3 is 60", and so are a marked one and an unmarked E.
#[test]
fn no_such_mark() {
    for (operation, c) in [(A, 5), (A, 0), (E, 4)] {
        let rule = true_l2(operation, EXACTLY, c);
        assert_eq!(with_room(&short(), &rule, 2, 0).answer, (60, 0, 3, 0), "{operation} {c}");
    }
    assert_eq!(with_room(&short(), &true_l2(A, EXACTLY, 0), 2, 2).answer, (60, 0, 3, 0));
}

/// Steps in no time make a run long though c is at most 255.
#[test]
fn the_most_steps() {
    let room = |output| [3, 257, output];
    assert_eq!(call(&one(), &true_true(E, EXACTLY, 255), 2, 0, room(1_536)).answer, (0, 0, 0, 1_536));
    assert_eq!(call(&one(), &true_true(E, EXACTLY, 255), 2, 0, room(1_535)).answer, (62, 0, 5, 0));
    let turns = chart(&[0, 0], &[[0, 1, 1, 1], [1, 0, 0, 0]]);
    for (state, c, steps) in [(0, 128, 255), (1, 128, 256), (0, 129, 257), (1, 129, 258), (1, 255, 510)] {
        let rule = true_true(E, EXACTLY, c);
        assert_eq!(fewest_steps(&turns, &rule, 2, state), Some(steps), "{state} {c}");
        let number = call(&turns, &rule, 2, state, [6, 514, 9_999]).answer.0;
        assert_eq!(number, if steps <= 256 { 0 } else { 62 }, "{state} {c}");
    }
}

#[test]
fn slots_without_end() {
    let chart = chart(&[1, 2], &[[0, 1, 3, NO_END], [1, 1, 1, 1]]);
    assert_eq!(run_of(&chart, &l0_l1(E, EXACTLY, 255), 2, 0), [(0, 255), (1, 0)]);
    assert_eq!(run_of(&chart, &l0_l1(E, EXACTLY, 3), 2, 0), [(0, 3), (1, 0)]);
    assert_eq!(with_room(&chart, &l0_l1(E, EXACTLY, 2), 2, 0).answer, (60, 0, 3, 0));
}

#[test]
fn the_text_of_desk_why() {
    let (chart, rule) = (short(), true_l2(E, EXACTLY, 14));
    let text = "0 at 0: 10 minutes to 1\n1 at 10: 4 minutes to 2\n2 at 14: until met at 14\n";
    assert_eq!(why_text(&chart, &rule, 2, 0), text);
    assert_eq!(judge_why(&chart, &rule, 2, 0, text), Ok(()));
    let late = "0 at 0: 10 minutes to 1\n1 at 10: 3 minutes to 2\n2 at 13: until met at 13\n";
    assert!(judge_why(&chart, &rule, 2, 0, late).is_err());
    assert_eq!(why_text(&chart, &true_l2(A, EXACTLY, 14), 2, 0), "refused 60 at 0 3\n");
}
