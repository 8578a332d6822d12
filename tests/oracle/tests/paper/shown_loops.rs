//! Runs shown on charts with loops in no time; each goes on to a run that counts, as every way does after row 19.

use crate::make::{chart, l0_l1, run, ArrowFields, A, AT_LEAST, AT_MOST, E};
use crate::show_call::{run_of, with_room};
use oracle::{fewest_steps, judge_run};

/// P at 0, Q at 1; both may be stayed at, at 0 with this slot, and 0 is left in no time.
fn stay(slot: [u16; 2]) -> Vec<u8> {
    chart(&[1, 2], &[[0, 0, slot[0], slot[1]], [0, 1, 0, 0], [1, 1, 0, 1]])
}

#[test]
fn back_and_forth() {
    let chart = chart(&[1, 2], &[[0, 1, 0, 3], [1, 0, 0, 3]]);
    assert_eq!(run_of(&chart, &l0_l1(A, AT_MOST, 2), 2, 0), [(0, 3), (1, 0)]);
    assert_eq!(with_room(&chart, &l0_l1(A, AT_MOST, 3), 2, 0).answer, (60, 0, 3, 0));
    assert_eq!(run_of(&chart, &l0_l1(E, AT_MOST, 0), 2, 0), [(0, 0), (1, 0)]);
}

/// The stay is no reason against A: no run that keeps to it counts. E passes it by.
#[test]
fn a_stay_in_no_time() {
    for c in [0, 9, 65_535] {
        assert_eq!(with_room(&stay([0, 0]), &l0_l1(A, AT_MOST, c), 2, 0).answer, (60, 0, 3, 0), "{c}");
        assert_eq!(run_of(&stay([0, 0]), &l0_l1(E, AT_MOST, c), 2, 0), [(0, 0), (1, 0)], "{c}");
    }
    assert_eq!(with_room(&stay([0, 0]), &l0_l1(E, AT_LEAST, 1), 2, 0).answer, (60, 0, 3, 0));
}

/// As few steps as the most allows.
#[test]
fn a_stay_in_which_time_can_pass() {
    for (c, steps) in [(0, 1), (2, 1), (3, 2), (8, 3), (767, 256), (768, 257), (65_535, 21_846)] {
        assert_eq!(fewest_steps(&stay([0, 3]), &l0_l1(A, AT_MOST, c), 2, 0), Some(steps), "{c}");
        let number = with_room(&stay([0, 3]), &l0_l1(A, AT_MOST, c), 2, 0).answer.0;
        assert_eq!(number, if steps <= 256 { 0 } else { 62 }, "{c}");
    }
    for (c, steps) in [(0, 1), (1, 2), (3, 2), (4, 3), (7, 4)] {
        assert_eq!(fewest_steps(&stay([0, 3]), &l0_l1(E, AT_LEAST, c), 2, 0), Some(steps), "{c}");
    }
}

/// Steps in no time are steps; with them a run is a true reason too, but not of the fewest.
#[test]
fn steps_in_no_time_are_judged() {
    let judged = |slot, rule: &[u8], positions: &[(u16, u32)]| judge_run(&stay(slot), rule, 2, 0, &run(positions));
    assert_eq!(judged([0, 0], &l0_l1(E, AT_MOST, 0), &[(0, 0), (0, 0), (0, 0), (1, 0)]), Ok(3));
    assert_eq!(judged([0, 3], &l0_l1(E, AT_LEAST, 7), &[(0, 0), (0, 3), (0, 3), (0, 1), (0, 0), (1, 0)]), Ok(5));
    assert_eq!(judged([0, 3], &l0_l1(A, AT_MOST, 2), &[(0, 0), (0, 1), (0, 2), (0, 0)]), Ok(3));
    assert!(judged([0, 3], &l0_l1(A, AT_MOST, 2), &[(0, 0), (0, 2), (0, 0), (0, 0)]).is_err());
    assert!(judged([0, 0], &l0_l1(A, AT_MOST, 0), &[(0, 0), (0, 0), (0, 0)]).is_err());
}

/// To neither operand by way of a loop of 0 to 0.
#[test]
fn neither_operand_within_the_minute() {
    let arrows: [ArrowFields; 4] = [[0, 1, 0, 0], [1, 0, 0, 0], [1, 2, 0, 0], [2, 2, 1, 1]];
    let chart = chart(&[1, 1, 0], &arrows);
    assert_eq!(run_of(&chart, &l0_l1(A, AT_MOST, 5), 2, 0), [(0, 0), (1, 0), (2, 0)]);
}
