//! A run that shows why an until is marked, or isn't: check first, then refusals 60 to 62, then a run of the fewest steps.

use super::arrows::ArrowLists;
use super::counts::{Count, Missing, Passed, FAR};
use super::exact_run::ExactRun;
use super::layers::{Layers, POSITION};
use super::rule::{Bound, Node, Rule};
use super::{accept, refusal, Outcome};

/// A run has 256 steps at most, and so many positions.
const POSITIONS: usize = 257;

/// The outcome, and how many bytes of the output are written; none on a refusal.
#[derive(Clone, Copy, Debug, PartialEq, Eq)]
pub struct Written {
    pub outcome: Outcome,
    pub written: usize,
}

/// Checks, and writes a run that shows the mark of that node at that state.
pub fn show(
    chart: &[u8],
    rule: &[u8],
    marks: &mut [u8],
    scratch: &mut [u32],
    node: usize,
    state: usize,
    output: &mut [u8],
) -> Written {
    match write_run(chart, rule, marks, scratch, node, state, output) {
        Ok(written) => Written { outcome: Outcome::ACCEPTED, written },
        Err(refused) => Written { outcome: refused, written: 0 },
    }
}

fn write_run(
    chart: &[u8],
    rule: &[u8],
    marks: &mut [u8],
    scratch: &mut [u32],
    node: usize,
    state: usize,
    output: &mut [u8],
) -> Result<usize, Outcome> {
    let (chart, rule) = accept(chart, rule, marks, scratch)?;
    let n = chart.labels.len();
    let until = asked(&rule, marks, n, node, state).ok_or(refusal(60, 0))?;
    let scratch = scratch.get_mut(..POSITIONS * n).ok_or(refusal(61, 0))?;
    let written = until.run(&chart.out, scratch, state, output);
    scratch.fill(0);
    written.ok_or(refusal(62, 0))
}

/// An until with a mark that a run can show.
struct Until<'a> {
    p: &'a [u8],
    q: &'a [u8],
    why: Why,
}

enum Why {
    /// Q within so many minutes.
    Within(u32),
    /// Q after so many minutes.
    After(u32),
    /// Q after just so many minutes.
    At(u32),
    /// No Q within so many minutes.
    Late(u32),
}

fn asked<'a>(rule: &Rule, marks: &'a [u8], n: usize, node: usize, state: usize) -> Option<Until<'a>> {
    if node >= rule.nodes.len() || state >= n {
        return None;
    }
    let row = |t: usize| &marks[t * n..(t + 1) * n];
    let (a, b, why) = match (rule.nodes[node], row(node)[state]) {
        (Node::SomeRun(a, b, Bound::AtMost(c)), 1) => (a, b, Why::Within(c)),
        (Node::SomeRun(a, b, Bound::AtLeast(c)), 1) => (a, b, Why::After(c)),
        (Node::SomeRun(a, b, Bound::Exactly(c)), 1) => (a, b, Why::At(c)),
        (Node::AllRuns(a, b, Bound::AtMost(c)), 0) => (a, b, Why::Late(c)),
        _ => return None,
    };
    Some(Until { p: row(a), q: row(b), why })
}

impl Until<'_> {
    /// Writes the run, if one has room.
    fn run(&self, out: &ArrowLists, scratch: &mut [u32], state: usize, output: &mut [u8]) -> Option<usize> {
        let (p, q) = (self.p, self.q);
        // No position is looked for that has no room.
        let positions = POSITIONS.min(output.len() / POSITION);
        let goal = |number: u32| move |s: usize| if q[s] == 1 { number } else { FAR };
        match self.why {
            // Minutes by steps would not do: it takes a number for each minute at each state.
            Why::At(c) => ExactRun::new(out, p, q, c as usize, scratch).write(state, positions, output),
            Why::Within(c) => {
                found::<Passed>(layers(out, scratch, positions), state, c, goal(0), |s| p[s] == 1, output)
            }
            Why::After(c) => {
                found::<Missing>(layers(out, scratch, positions), state, 0, goal(c), |s| p[s] == 1, output)
            }
            Why::Late(c) => {
                // Past the bound a run may be anywhere; where neither P nor Q holds it fails at once. It has the fewest
                // steps, so no position before its last is past the bound.
                let end = |s: usize| if p[s] | q[s] == 1 { c + 1 } else { 0 };
                found::<Missing>(layers(out, scratch, positions), state, 0, end, |s| p[s] > q[s], output)
            }
        }
    }
}

/// A layer for each position.
fn layers<'a>(out: &'a ArrowLists, scratch: &'a mut [u32], positions: usize) -> Layers<'a> {
    Layers { out, numbers: &mut scratch[..positions * out.states()] }
}

fn found<C: Count>(
    mut layers: Layers,
    state: usize,
    enough: u32,
    end: impl Fn(usize) -> u32,
    go: impl Fn(usize) -> bool,
    output: &mut [u8],
) -> Option<usize> {
    let steps = layers.search::<C>(state, enough, end, go)?;
    Some(layers.write::<C>(state, steps, output))
}
