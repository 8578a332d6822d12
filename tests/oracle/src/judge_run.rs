//! Whether bytes are a true reason, from the papers' words and without a search.
//!
//! A reason goes on to a run that counts. That isn't asked of the bytes: row 19 lets every way on an accepted chart go
//! on so, from any state at which it ends.

use crate::asked::{with_asked, Asked};
use crate::chart::NO_END;
use crate::position::{moments, run_of_bytes, Position, POSITION};

/// Any true reason from that state is right, of the fewest steps or not: its number of steps, or what is wrong.
pub fn judge_run(chart: &[u8], rule: &[u8], node: usize, state: usize, run: &[u8]) -> Result<usize, String> {
    let judged = with_asked(chart, rule, node, state, |asked| judge_bytes(asked, run));
    judged.unwrap_or_else(|| Err(format!("no run is asked for: node {node} at state {state} is no such mark")))
}

pub fn judge_bytes(asked: &Asked<'_>, bytes: &[u8]) -> Result<usize, String> {
    demand(bytes.len() % POSITION == 0, || format!("{} bytes are no whole positions", bytes.len()))?;
    let run = run_of_bytes(bytes);
    let Some(last) = run.last() else {
        return Err("a run without a position".to_string());
    };
    judge_steps(asked, &run)?;
    demand(last.duration == 0, || format!("the last duration is {}, not 0", last.duration))?;
    match asked.until.every {
        true => judge_unmet(asked, &run)?,
        false => judge_met(asked, &run)?,
    }
    Ok(run.len() - 1)
}

fn demand(right: bool, wrong: impl FnOnce() -> String) -> Result<(), String> {
    match right {
        true => Ok(()),
        false => Err(wrong()),
    }
}

/// From the state that was asked for, each step takes an arrow with a duration in its slot. One position after the
/// other: what an arrow ends at is a state.
fn judge_steps(asked: &Asked<'_>, run: &[Position]) -> Result<(), String> {
    let start = usize::from(run[0].state);
    demand(start == asked.state, || format!("the run starts at state {start}, not at {}", asked.state))?;
    for (i, step) in run.windows(2).enumerate() {
        let (from, to, duration) = (step[0].state, step[1].state, step[0].duration);
        let mut arrows = asked.until.leaving.state(usize::from(from)).iter().filter(|arrow| arrow.end == to).peekable();
        demand(arrows.peek().is_some(), || format!("step {i}: no arrow leads from {from} to {to}"))?;
        let in_slot = arrows.any(|arrow| {
            u32::from(arrow.fewest) <= duration && (arrow.most == NO_END || duration <= u32::from(arrow.most))
        });
        demand(in_slot, || format!("step {i}: {duration} minutes are in no slot from {from} to {to}"))?;
    }
    Ok(())
}

/// What a judge of the until asks about one position.
struct Seen {
    p: bool,
    q: bool,
    moment: u64,
}

fn seen(asked: &Asked<'_>, run: &[Position]) -> Vec<Seen> {
    let holds = |row: &[u8], at: &Position| row[usize::from(at.state)] == 1;
    let see = |(at, moment)| Seen { p: holds(asked.until.p, at), q: holds(asked.until.q, at), moment };
    run.iter().zip(moments(run)).map(see).collect()
}

/// E: "a position whose moment meets the bound, where Q holds and P holds at every earlier position". That it is the
/// first such position is not asked for; the fewest steps see to it.
fn judge_met(asked: &Asked<'_>, run: &[Position]) -> Result<(), String> {
    let (seen, c) = (seen(asked, run), asked.until.c as u64);
    let (end, earlier) = (&seen[seen.len() - 1], &seen[..seen.len() - 1]);
    demand(end.q, || "Q doesn't hold at the last position".to_string())?;
    demand(asked.until.bound.is_met(end.moment, c), || {
        format!("moment {} of the last position doesn't meet the bound of {c}", end.moment)
    })?;
    match earlier.iter().position(|at| !at.p) {
        Some(i) => Err(format!("P doesn't hold at position {i}")),
        None => Ok(()),
    }
}

/// A: "at the first position whose moment is above c or where neither operand holds, the until not met before".
fn judge_unmet(asked: &Asked<'_>, run: &[Position]) -> Result<(), String> {
    let (seen, c) = (seen(asked, run), asked.until.c as u64);
    let (end, earlier) = (&seen[seen.len() - 1], &seen[..seen.len() - 1]);
    let over = |at: &Seen| at.moment > c || !at.p && !at.q;
    for (i, at) in earlier.iter().enumerate() {
        let met = at.q && at.moment <= c && earlier[..i].iter().all(|before| before.p);
        demand(!met, || format!("the until is met at position {i}"))?;
        demand(!over(at), || format!("position {i} ends the run already"))?;
    }
    demand(over(end), || format!("moment {} isn't above {c}, and an operand holds", end.moment))
}
