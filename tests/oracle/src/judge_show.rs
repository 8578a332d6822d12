//! Whether somebody's answer to a call of show is one that the papers allow.

use crate::answers::{Outcome, Written};
use crate::asked::Asked;
use crate::judge_run::judge_bytes;
use crate::leaving::Leaving;
use crate::position::POSITION;
use crate::show::settle_run;
use std::fmt::Display;

/// What was lent to a call of show.
#[derive(Clone, Debug)]
pub struct ShowCall<'a> {
    pub chart: &'a [u8],
    pub rule: &'a [u8],
    pub marks: &'a [u8],
    pub scratch: &'a [u32],
    pub node: usize,
    pub state: usize,
    pub output: &'a [u8],
}

/// The answer and the buffers afterwards; the error says what is wrong. Only the run itself is free.
pub fn judge_show(
    call: &ShowCall<'_>,
    answer: Written,
    marks: &[u8],
    scratch: &[u32],
    output: &[u8],
) -> Result<(), String> {
    let (mut right_marks, mut right_scratch) = (call.marks.to_vec(), call.scratch.to_vec());
    let ShowCall { chart, rule, node, state, .. } = *call;
    let settled = settle_run(chart, rule, &mut right_marks, &mut right_scratch, node, state, call.output.len());
    let (outcome, written) = match &settled {
        Ok(run) => (Outcome::SUCCESS, POSITION * run.len()),
        Err(outcome) => (*outcome, 0),
    };
    if answer != (Written { outcome, written }) {
        return Err(format!("answered {answer:?}, not {outcome:?} with {written} bytes written"));
    }
    same("marks byte", marks, &right_marks)?;
    same("scratch number", scratch, &right_scratch)?;
    if output.len() != call.output.len() {
        return Err(format!("output of {} bytes, not {}", output.len(), call.output.len()));
    }
    let (run, rest) = output.split_at(written);
    same("output byte past the run", rest, &call.output[written..])?;
    if settled.is_ok() {
        let leaving = Leaving::of(chart);
        let asked = Asked::of(&leaving, rule, &right_marks, node, state).expect("a run was found");
        judge_bytes(&asked, run)?;
    }
    Ok(())
}

fn same<T: Copy + PartialEq + Display>(what: &str, is: &[T], right: &[T]) -> Result<(), String> {
    if is.len() != right.len() {
        return Err(format!("{what}s: {} of them, not {}", is.len(), right.len()));
    }
    match (0..is.len()).find(|&i| is[i] != right[i]) {
        Some(i) => Err(format!("{what} {i} is {}, not {}", is[i], right[i])),
        None => Ok(()),
    }
}
