//! The judge of runs: every true reason is right, and each kind of fault is found.

use crate::make::{chart, l0_l1, one, run, short, true_l2, true_true, A, AT_LEAST, AT_MOST, E, NO_END};
use crate::show_call::run_of;
use oracle::judge_run;

type Positions<'a> = &'a [(u16, u32)];

/// Chart, rule and state that the run is judged for; the node is 2.
struct Case {
    chart: Vec<u8>,
    rule: Vec<u8>,
    state: usize,
}

impl Case {
    fn right(&self, positions: Positions) {
        let judged = judge_run(&self.chart, &self.rule, 2, self.state, &run(positions));
        assert_eq!(judged, Ok(positions.len() - 1), "{positions:?}");
    }

    fn wrong(&self, positions: Positions, what: &str) {
        self.wrong_bytes(&run(positions), what);
    }

    fn wrong_bytes(&self, bytes: &[u8], what: &str) {
        let wrong = judge_run(&self.chart, &self.rule, 2, self.state, bytes).expect_err(what);
        assert!(wrong.contains(what), "{wrong}");
    }
}

fn short_e(c: u16) -> Case {
    Case { chart: short(), rule: true_l2(E, AT_MOST, c), state: 0 }
}

fn short_a(c: u16) -> Case {
    Case { chart: short(), rule: true_l2(A, AT_MOST, c), state: 0 }
}

#[test]
fn any_true_reason() {
    let case = short_e(40);
    let own = run_of(&case.chart, &case.rule, 2, 0);
    for other in [[(0, 5), (1, 0), (2, 0)], [(0, 5), (1, 4), (2, 0)], [(0, 10), (1, 4), (2, 0)]] {
        case.right(&other);
    }
    case.right(&own);
    assert_eq!(own.len(), 3);
    case.right(&[(0, 5), (1, 0), (2, 20), (0, 10), (1, 4), (2, 0)]);
    short_a(12).right(&[(0, 9), (1, 4), (2, 0)]);
    short_a(12).right(&[(0, 10), (1, 4), (2, 0)]);
}

#[test]
fn steps_of_the_chart() {
    let case = short_e(40);
    case.wrong(&[(0, 5), (2, 0)], "no arrow leads from 0 to 2");
    case.wrong(&[(0, 5), (3, 0)], "no arrow leads from 0 to 3");
    case.wrong(&[(0, 5), (65_535, 0), (2, 0)], "no arrow leads from 0 to 65535");
    case.wrong(&[(0, 4), (1, 0), (2, 0)], "4 minutes are in no slot");
    case.wrong(&[(0, 11), (1, 0), (2, 0)], "11 minutes are in no slot");
    case.wrong(&[(0, 5), (1, 5), (2, 0)], "5 minutes are in no slot");
    case.wrong(&[(0, 5), (1, 0), (2, 19), (0, 5), (1, 0), (2, 0)], "19 minutes are in no slot");
}

/// Slots of equal arrows are not joined.
#[test]
fn slots_side_by_side() {
    let chart = chart(&[1, 2], &[[0, 1, 1, 2], [0, 1, 5, 6], [1, 1, 1, 1]]);
    let case = Case { chart, rule: l0_l1(E, AT_MOST, 9), state: 0 };
    for duration in 0..9 {
        match duration {
            1 | 2 | 5 | 6 => case.right(&[(0, duration), (1, 0)]),
            _ => case.wrong(&[(0, duration), (1, 0)], "in no slot"),
        }
    }
}

#[test]
fn form() {
    let case = short_e(5);
    let right = run(&[(0, 5), (1, 0), (2, 0)]);
    case.wrong_bytes(&right[..17], "17 bytes are no whole positions");
    case.wrong_bytes(&[right.as_slice(), &[0]].concat(), "19 bytes are no whole positions");
    case.wrong_bytes(&[], "without a position");
    case.wrong(&[(0, 5), (1, 0), (2, 1)], "the last duration is 1");
    case.wrong(&[(0, 5), (1, 0), (2, 20)], "the last duration is 20");
    case.wrong(&[(1, 0), (2, 0)], "starts at state 1, not at 0");
    case.wrong(&[(2, 0)], "starts at state 2, not at 0");
    case.wrong(&[(65_535, 0)], "starts at state 65535");
}

#[test]
fn e_meets_its_until() {
    short_e(5).wrong(&[(0, 0)], "Q doesn't hold");
    short_e(5).wrong(&[(0, 5), (1, 0)], "Q doesn't hold");
    short_e(5).wrong(&[(0, 5), (1, 1), (2, 0)], "moment 6 of the last position doesn't meet");
    let labels = [1, 0, 2, 3];
    let arrows = [[0, 1, 1, 1], [0, 3, 1, 1], [1, 2, 1, 1], [3, 2, 1, 1], [2, 2, 1, 1]];
    let case = Case { chart: chart(&labels, &arrows), rule: l0_l1(E, AT_LEAST, 1), state: 0 };
    case.right(&[(0, 1), (3, 0)]);
    case.right(&[(0, 1), (3, 1), (2, 0)]);
    case.wrong(&[(0, 1), (1, 1), (2, 0)], "P doesn't hold at position 1");
    case.wrong(&[(0, 1), (3, 1), (2, 1), (2, 0)], "P doesn't hold at position 2");
    let later = Case { rule: l0_l1(E, AT_LEAST, 2), ..case };
    later.right(&[(0, 1), (3, 1), (2, 0)]);
    later.wrong(&[(0, 1), (3, 0)], "moment 1 of the last position doesn't meet");
}

/// Labels of the states: P; Q; neither; both.
fn four_states(state: usize) -> Case {
    let mut arrows = vec![[2, 2, 1, 1]];
    arrows.extend([0, 1, 3].into_iter().flat_map(|start| (0..4).map(move |end| [start, end, 1, NO_END])));
    Case { chart: chart(&[1, 2, 0, 3], &arrows), rule: l0_l1(A, AT_MOST, 10), state }
}

#[test]
fn a_ends_where_it_is_over() {
    let case = four_states(0);
    case.right(&[(0, 1), (2, 0)]);
    case.right(&[(0, 10), (2, 0)]);
    (0..4).for_each(|last| case.right(&[(0, 3), (0, 8), (last, 0)]));
    four_states(2).right(&[(2, 0)]);
    case.wrong(&[(0, 0)], "moment 0 isn't above 10");
    for last in [0, 1, 3] {
        case.wrong(&[(0, 10), (last, 0)], "moment 10 isn't above 10");
    }
}

#[test]
fn a_is_not_over_before() {
    let case = four_states(0);
    case.wrong(&[(0, 1), (2, 1), (2, 0)], "position 1 ends the run already");
    case.wrong(&[(0, 11), (0, 1), (2, 0)], "position 1 ends the run already");
    case.wrong(&[(0, 11), (1, 1), (2, 0)], "position 1 ends the run already");
    four_states(2).wrong(&[(2, 1), (2, 0)], "position 0 ends the run already");
}

#[test]
fn a_is_not_met_before() {
    let case = four_states(0);
    case.wrong(&[(0, 1), (1, 1), (2, 0)], "the until is met at position 1");
    case.wrong(&[(0, 1), (3, 10), (2, 0)], "the until is met at position 1");
    case.wrong(&[(0, 1), (0, 9), (1, 1), (0, 0)], "the until is met at position 2");
}

/// At 1 and 3 the A-until is marked; E is unmarked at Short's 0; the node must be an until; bytes must be accepted.
#[test]
fn no_run_is_asked_for() {
    four_states(1).wrong(&[(1, 11), (0, 0)], "no such mark");
    four_states(3).wrong(&[(3, 11), (0, 0)], "no such mark");
    short_e(4).wrong(&[(0, 5), (1, 0), (2, 0)], "no such mark");
    let right = run(&[(0, 5), (1, 0), (2, 0)]);
    let rule = true_l2(E, AT_MOST, 5);
    assert_eq!(judge_run(&short(), &rule, 2, 0, &right), Ok(2));
    for (node, state) in [(0, 0), (1, 0), (3, 0), (2, 3), (usize::MAX, usize::MAX)] {
        assert!(judge_run(&short(), &rule, node, state, &right).is_err());
    }
    assert!(judge_run(&[], &rule, 2, 0, &right).is_err());
    assert!(judge_run(&short(), &[], 2, 0, &right).is_err());
    let at_least = Case { rule: true_l2(A, AT_LEAST, 65_535), ..short_e(5) };
    at_least.wrong(&[(0, 5), (1, 0), (2, 0)], "no such mark");
}

/// The durations sum to 2^32 and 2^33, which wrapped would be 0.
#[test]
fn sums_do_not_wrap() {
    let chart = chart(&[1, 2], &[[0, 0, 1, NO_END], [0, 1, 1, NO_END], [1, 1, 1, 1]]);
    let half = 1 << 31;
    let early = Case { chart: chart.clone(), rule: l0_l1(E, AT_MOST, 5), state: 0 };
    early.wrong(&[(0, half), (0, half), (1, 0)], "moment 4294967296");
    early.wrong(&[(0, half), (0, half), (0, half), (0, half), (1, 0)], "moment 8589934592");
    let late = Case { chart, rule: l0_l1(E, AT_LEAST, 5), state: 0 };
    late.right(&[(0, half), (0, half), (1, 0)]);
    late.right(&[vec![(0, u32::MAX); 256], vec![(1, 0)]].concat());
}

/// The judge counts steps above 256 as well.
#[test]
fn long_runs() {
    let long = |steps: usize| run(&[vec![(0, 1); steps], vec![(0, 0)]].concat());
    let rule = true_true(E, AT_LEAST, 300);
    assert_eq!(judge_run(&one(), &rule, 2, 0, &long(300)), Ok(300));
    assert_eq!(judge_run(&one(), &rule, 2, 0, &long(1000)), Ok(1000));
    assert!(judge_run(&one(), &rule, 2, 0, &long(299)).is_err());
}
