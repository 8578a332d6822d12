//! Small charts and rules, as a dispatch desk has them: a call waits, a crew drives, is at the patient, drives on to the
//! hospital, and the call is closed.

use crate::bytes::{self, Arrow, Node, NO_END};
use crate::nodes::{all_runs, always, and, label, not, or, some_run, AT_LEAST, AT_MOST};
use crate::random::Random;

/// Chart and rule of each row.
pub const ROWS: [(&str, &str); 8] = [
    ("small-3", "desk-3"),
    ("small-3", "desk-6"),
    ("small-5", "desk-4"),
    ("small-5", "desk-10"),
    ("small-8", "desk-5"),
    ("small-8", "desk-8"),
    ("small-12", "desk-6"),
    ("small-16", "desk-10"),
];

/// The labels are the stages of a call.
const WAITING: u16 = 0;
const DRIVING: u16 = 1;
const AT_PATIENT: u16 = 2;
const TO_HOSPITAL: u16 = 3;
const CLOSED: u16 = 4;
const STAGES: usize = 5;

/// Fewest and most minutes from each stage to the next, a little more at one state than at another; after the close the
/// next call may take any time.
const MINUTES: [(u16, u16); STAGES] = [(1, 9), (4, 12), (3, 40), (8, 25), (0, NO_END)];

/// Of the first 100 seeds one with which every row's rule holds at some states and fails at others.
const SEED: u64 = 61;

/// The chart of that name; no such chart gives none.
pub fn chart(name: &str) -> Option<Vec<u8>> {
    let (n, m) = match name {
        "small-3" => (3, 5),
        "small-5" => (5, 9),
        "small-8" => (8, 18),
        "small-12" => (12, 26),
        "small-16" => (16, 44),
        _ => return None,
    };
    let labels: Vec<u16> = (0..n).map(|s| 1 << stage(n, s)).collect();
    Some(bytes::chart(&labels, &arrows(n, m)))
}

/// The states of a stage stand side by side; a chart of three states ends at the patient.
fn stage(n: usize, state: usize) -> usize {
    state * STAGES.min(n) / n
}

/// First the course of a call from each state, listed in order; then what may happen besides, as it comes to mind.
fn arrows(n: usize, m: usize) -> Vec<Arrow> {
    let mut random = Random::new(n as u64 + SEED);
    let mut arrows: Vec<Arrow> = (0..n).map(|s| onward(n, s, &mut random)).collect();
    while arrows.len() < m {
        arrows.push(besides(n, &mut random));
    }
    arrows
}

/// To a state of the next stage, the last stage to the first.
fn onward(n: usize, state: usize, random: &mut Random) -> Arrow {
    let next = (stage(n, state) + 1) % STAGES.min(n);
    let (fewest, most) = MINUTES[stage(n, state)];
    let fewest = fewest + random.below(4) as u16;
    let most = most.saturating_add(random.below(10) as u16);
    Arrow { start: state as u16, end: any_of(n, next, random), fewest, most }
}

/// A waiting call may be put off once more, a crew on its way may be called back; else another way onward.
fn besides(n: usize, random: &mut Random) -> Arrow {
    let state = random.below(n);
    let put_off = stage(n, state) == 0 && stage(n, state + 1) == 0;
    let called_back = stage(n, state) > 0 && random.chance(1, 3);
    if put_off {
        return Arrow { start: state as u16, end: state as u16 + 1, fewest: 3, most: 9 };
    }
    if called_back {
        return Arrow { start: state as u16, end: any_of(n, 0, random), fewest: 1, most: 2 };
    }
    onward(n, state, random)
}

fn any_of(n: usize, wanted: usize, random: &mut Random) -> u16 {
    let states: Vec<usize> = (0..n).filter(|&s| stage(n, s) == wanted).collect();
    states[random.below(states.len())] as u16
}

/// The rule of that name; no such rule gives none. `desk-4`: some call can be open for an hour; `desk-5`: within 45 minutes
/// a crew is at the patient, or the call is closed, along every run.
pub fn rule(name: &str) -> Option<Vec<u8>> {
    let nodes = match name {
        "desk-3" => soon_driving(0),
        "desk-4" => vec![label(CLOSED), not(0), label(CLOSED), some_run(1, 2, AT_LEAST, 60)],
        "desk-5" => vec![always(), label(AT_PATIENT), label(CLOSED), or(1, 2), all_runs(0, 3, AT_MOST, 45)],
        "desk-6" => waiting_is_answered(0),
        "desk-8" => stays_with_the_patient(),
        "desk-10" => answered_and_reached(),
        _ => return None,
    };
    Some(bytes::rule(&nodes))
}

/// A crew is driving within 14 minutes along every run. The operands stand from node `first` on.
fn soon_driving(first: u16) -> Vec<Node> {
    vec![always(), label(DRIVING), all_runs(first, first + 1, AT_MOST, 14)]
}

/// From every waiting state a crew is driving within 14 minutes along every run.
fn waiting_is_answered(first: u16) -> Vec<Node> {
    let mut nodes = vec![label(WAITING), not(first)];
    nodes.extend(soon_driving(first + 2));
    nodes.push(or(first + 1, first + 4));
    nodes
}

/// Who is at the patient stays there five minutes at least, until driving on or closing the call.
fn stays_with_the_patient() -> Vec<Node> {
    let mut nodes = vec![label(AT_PATIENT), not(0), label(AT_PATIENT), label(TO_HOSPITAL), label(CLOSED)];
    nodes.extend([or(3, 4), all_runs(2, 5, AT_LEAST, 5), or(1, 6)]);
    nodes
}

/// Some run is at the patient within 12 minutes, and from every waiting state a crew is soon driving.
fn answered_and_reached() -> Vec<Node> {
    let mut nodes = vec![always(), label(AT_PATIENT), some_run(0, 1, AT_MOST, 12)];
    nodes.extend(waiting_is_answered(3));
    nodes.push(and(2, 8));
    nodes
}
