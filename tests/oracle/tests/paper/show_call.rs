//! Calls of show, each judged as well.

use crate::told::told;
use oracle::{judge_show, show, ShowCall, Written};

/// Number, place, entry and bytes written, and the buffers afterwards. Lent were marks of 7, scratch of 9 and output of 5.
pub struct Called {
    pub answer: (u32, u32, u32, usize),
    pub marks: Vec<u8>,
    pub scratch: Vec<u32>,
    pub output: Vec<u8>,
}

/// The room that is lent: marks, scratch and output.
pub type Room = [usize; 3];

pub fn call(chart: &[u8], rule: &[u8], node: usize, state: usize, [marks, scratch, output]: Room) -> Called {
    let lent = (vec![7; marks], vec![9; scratch], vec![5; output]);
    let (mut marks, mut scratch, mut output) = lent.clone();
    let answer = show(chart, rule, &mut marks, &mut scratch, node, state, &mut output);
    let lent = ShowCall { chart, rule, marks: &lent.0, scratch: &lent.1, node, state, output: &lent.2 };
    assert_eq!(judge_show(&lent, answer, &marks, &scratch, &output), Ok(()));
    let Written { outcome, written } = answer;
    let (number, place, entry) = told(outcome);
    Called { answer: (number, place, entry, written), marks, scratch, output }
}

/// Room for every run.
pub fn with_room(chart: &[u8], rule: &[u8], node: usize, state: usize) -> Called {
    call(chart, rule, node, state, [16_384, 65_792, 1_542])
}

/// The states and durations of the run.
pub fn run_of(chart: &[u8], rule: &[u8], node: usize, state: usize) -> Vec<(u16, u32)> {
    let Called { answer: (number, _, _, written), output, .. } = with_room(chart, rule, node, state);
    assert_eq!(number, 0);
    let positions = output[..written].chunks(6);
    positions.map(|at| (u16::from_be_bytes([at[0], at[1]]), u32::from_be_bytes(at[2..].try_into().unwrap()))).collect()
}
