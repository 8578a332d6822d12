//! What the program desk_why prints.

use crate::answers::Outcome;
use crate::asked::Asked;
use crate::desk::refused_line;
use crate::leaving::Leaving;
use crate::position::{moments, Position};
use crate::show::settle_run;

/// What the program lends: room for the largest rule and chart and for the longest run.
const MARKS: usize = 16_384;
const SCRATCH: usize = 65_792;
const OUTPUT: usize = 1_542;

/// The whole output for these bytes, with a run of the oracle's own choice.
pub fn why_text(chart: &[u8], rule: &[u8], node: usize, state: usize) -> String {
    match with_run(chart, rule, node, state, run_text) {
        Ok(text) => text,
        Err(outcome) => refused_line(outcome),
    }
}

/// Calls show with what the program lends: an answer from what was asked for and a run, or the refusal.
pub fn with_run<T>(
    chart: &[u8],
    rule: &[u8],
    node: usize,
    state: usize,
    answer: impl FnOnce(&Asked<'_>, &[Position]) -> T,
) -> Result<T, Outcome> {
    let mut marks = vec![0; MARKS];
    let run = settle_run(chart, rule, &mut marks, &mut vec![0; SCRATCH], node, state, OUTPUT)?;
    let leaving = Leaving::of(chart);
    let asked = Asked::of(&leaving, rule, &marks, node, state).expect("a run was found");
    Ok(answer(&asked, &run))
}

/// A line a position; the run is a true reason.
pub fn run_text(asked: &Asked<'_>, run: &[Position]) -> String {
    let mut text = String::new();
    for (i, (at, moment)) in run.iter().zip(moments(run)).enumerate() {
        let told = match run.get(i + 1) {
            Some(next) => format!("{} minutes to {}", at.duration, next.state),
            None => ending(asked, moment),
        };
        text.push_str(&format!("{} at {moment}: {told}\n", at.state));
    }
    text
}

/// Why the run ends at this moment. Above c is told also where neither operand holds.
fn ending(asked: &Asked<'_>, moment: u64) -> String {
    let c = asked.until.c;
    match asked.until.every {
        false => format!("until met at {moment}"),
        true if moment > c as u64 => format!("above {c}"),
        true => "neither operand".to_string(),
    }
}
