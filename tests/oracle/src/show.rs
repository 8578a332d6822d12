//! Show: a run that tells why an until holds at a state, or for A why it doesn't.

use crate::answers::{Outcome, Written};
use crate::asked::{with_asked, Asked};
use crate::chart::state_count;
use crate::check::check;
use crate::leaving::Leaving;
use crate::position::{run_bytes, Position, POSITION};
use crate::search::search;

/// A run of more steps isn't written out.
const MOST_STEPS: usize = 256;

/// Scratch numbers per state: as many as the longest run has positions.
const SCRATCH: usize = MOST_STEPS + 1;

/// Writes a run of the oracle's own choice.
pub fn show(
    chart: &[u8],
    rule: &[u8],
    marks: &mut [u8],
    scratch: &mut [u32],
    node: usize,
    state: usize,
    output: &mut [u8],
) -> Written {
    match settle_run(chart, rule, marks, scratch, node, state, output.len()) {
        Ok(run) => {
            let bytes = run_bytes(&run);
            output[..bytes.len()].copy_from_slice(&bytes);
            Written { outcome: Outcome::SUCCESS, written: bytes.len() }
        }
        Err(outcome) => Written { outcome, written: 0 },
    }
}

/// All of the call but its output, of which `room` bytes are lent: a run of the fewest steps, or the refusal.
pub fn settle_run(
    chart: &[u8],
    rule: &[u8],
    marks: &mut [u8],
    scratch: &mut [u32],
    node: usize,
    state: usize,
    room: usize,
) -> Result<Vec<Position>, Outcome> {
    let outcome = check(chart, rule, marks, scratch);
    if outcome.refused() {
        return Err(outcome);
    }
    let leaving = Leaving::of(chart);
    let asked = Asked::of(&leaving, rule, marks, node, state).ok_or(Outcome::at_0(60))?;
    scratch.get_mut(..SCRATCH * state_count(chart)).ok_or(Outcome::at_0(61))?.fill(0);
    let found = search(&asked, MOST_STEPS).filter(|found| POSITION * (found.steps + 1) <= room);
    Ok(found.ok_or(Outcome::at_0(62))?.run())
}

/// The fewest steps of a true reason, however many; None where the node and the state are no such mark.
pub fn fewest_steps(chart: &[u8], rule: &[u8], node: usize, state: usize) -> Option<usize> {
    with_asked(chart, rule, node, state, |asked| search(asked, usize::MAX).map(|found| found.steps))?
}
