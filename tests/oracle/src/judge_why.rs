//! Whether a text is one that the program desk_why may print.

use crate::asked::Asked;
use crate::desk::refused_line;
use crate::judge_run::judge_bytes;
use crate::position::{run_bytes, Position};
use crate::why::{run_text, with_run};

/// The error says what is wrong. Only the run that is told is free.
pub fn judge_why(chart: &[u8], rule: &[u8], node: usize, state: usize, text: &str) -> Result<(), String> {
    let judge = |asked: &Asked<'_>, run: &[Position]| judge_told(asked, run.len() - 1, text);
    with_run(chart, rule, node, state, judge).unwrap_or_else(|outcome| same_text(text, &refused_line(outcome)))
}

/// States and durations are taken from the text and judged; all else in it follows from them.
fn judge_told(asked: &Asked<'_>, fewest: usize, text: &str) -> Result<(), String> {
    let tell = |line| told(line).ok_or_else(|| format!("a line that tells no position: {line:?}"));
    let run = text.lines().map(tell).collect::<Result<Vec<_>, _>>()?;
    let steps = judge_bytes(asked, &run_bytes(&run))?;
    if steps != fewest {
        return Err(format!("{steps} steps, the fewest are {fewest}"));
    }
    same_text(text, &run_text(asked, &run))
}

/// The state and the duration that a line tells; where it tells none the duration is 0.
fn told(line: &str) -> Option<Position> {
    let (state, rest) = line.split_once(" at ")?;
    let (_, rest) = rest.split_once(": ")?;
    let duration = match rest.split_once(" minutes to ") {
        Some((duration, _)) => duration.parse().ok()?,
        None => 0,
    };
    Some(Position { state: state.parse().ok()?, duration })
}

fn same_text(text: &str, right: &str) -> Result<(), String> {
    match text == right {
        true => Ok(()),
        false => Err(format!("the text is {text:?}, not {right:?}")),
    }
}
