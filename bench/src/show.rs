//! One input of show, run on the library or on the peer.

use crate::input::Input;
use crate::library_show;
use crate::timing::{in_turn, Pair, Plan};
use bench::peer::{self, Outcome, Written};
use bench::shown;
use std::hint::black_box;

/// Bytes of a position: the state in 2, the duration in 4.
const POSITION: usize = 6;
/// A run that is shown has so many positions at most.
pub const POSITIONS: usize = 257;

pub struct Show {
    pub input: Input,
    pub node: usize,
    pub state: usize,
}

/// What is lent, and so much of scratch and output.
pub struct Lent {
    marks: Vec<u8>,
    scratch: Vec<u32>,
    output: Vec<u8>,
}

impl Lent {
    /// Filled with what neither program writes, so that kept content shows.
    pub fn new(scratch: usize, positions: usize) -> Lent {
        Lent {
            marks: vec![0xAA; 64 * 256 + 1],
            scratch: vec![0xAAAA_AAAA; scratch],
            output: vec![0xAA; positions * POSITION + 1],
        }
    }

    /// As much as the largest input asks for.
    pub fn whole() -> Lent {
        Lent::new(POSITIONS * 256 + 1, POSITIONS)
    }
}

/// The steps of the run that is written; none on a refusal.
pub fn steps(Written { outcome, written }: Written) -> Option<usize> {
    let accepted = outcome == Outcome::ACCEPTED && written >= POSITION && written % POSITION == 0;
    accepted.then(|| written / POSITION - 1)
}

impl Show {
    /// The input of that row, and the steps that its run has.
    pub fn named(chart: &str, rule: &str) -> Result<(Show, usize), String> {
        let row = shown::input(chart, rule).ok_or(format!("no run is shown for {chart} with {rule}"))?;
        let input = Input { chart: row.chart, rule: row.rule };
        Ok((Show { input, node: row.node, state: row.state }, row.steps))
    }

    pub fn library(&self, lent: &mut Lent) -> Written {
        let (chart, rule) = (black_box(&self.input.chart), black_box(&self.input.rule));
        let (marks, scratch, output) = (&mut lent.marks, &mut lent.scratch, &mut lent.output);
        black_box(library_show::show(chart, rule, marks, scratch, self.node, self.state, output))
    }

    pub fn peer(&self, lent: &mut Lent) -> Written {
        let (chart, rule) = (black_box(&self.input.chart), black_box(&self.input.rule));
        let (marks, scratch, output) = (&mut lent.marks, &mut lent.scratch, &mut lent.output);
        black_box(peer::show(chart, rule, marks, scratch, self.node, self.state, output))
    }

    /// The times of library and peer; a run that hasn't the steps of the peer's is not timed.
    pub fn times(&self, plan: &Plan) -> Result<Pair, String> {
        self.agree(Lent::whole)?;
        let (mut ours, mut theirs) = (Lent::whole(), Lent::whole());
        let library = || {
            self.library(&mut ours);
        };
        let peer = || {
            self.peer(&mut theirs);
        };
        Ok(in_turn(plan, library, peer))
    }

    /// What both answer: the same, with equal marks and scratch, and a run of as many steps from the state, which may be
    /// another run. Past the run the output is kept.
    pub fn agree(&self, lend: impl Fn() -> Lent) -> Result<Written, String> {
        let (mut ours, mut theirs) = (lend(), lend());
        let answers = (self.library(&mut ours), self.peer(&mut theirs));
        if answers.0 != answers.1 {
            return Err(format!("answers of library and peer: {answers:?}"));
        }
        if ours.marks != theirs.marks {
            return Err("marks of library and peer differ".to_string());
        }
        if ours.scratch != theirs.scratch {
            return Err("scratch of library and peer differs".to_string());
        }
        let written = answers.0.written;
        if ours.output[written..] != theirs.output[written..] {
            return Err(format!("output of library and peer differs past byte {written}"));
        }
        if ours.output[..written.min(2)] != theirs.output[..written.min(2)] {
            return Err("runs of library and peer start at different states".to_string());
        }
        Ok(answers.0)
    }
}
