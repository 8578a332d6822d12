//! Whether a run is a true reason for an until's mark, judged position by position.

use crate::common::word;
use bench::bytes::{Arrow, Node, NO_END};

/// The until, with the states where its operands hold.
pub struct Until<'a> {
    pub node: Node,
    pub p: &'a [bool],
    pub q: &'a [bool],
}

impl Until<'_> {
    /// Whether a run may end at that state at that moment, all before being as it has to be.
    pub fn ends(&self, state: usize, moment: u64) -> bool {
        let c = u64::from(self.node.c);
        match (self.node.operation, self.node.kind) {
            (5, 1) => self.q[state] && moment <= c,
            (5, 2) => self.q[state] && moment >= c,
            (5, _) => self.q[state] && moment == c,
            _ => moment > c || !self.p[state] && !self.q[state],
        }
    }

    /// Whether a run may go on from there.
    pub fn goes_on(&self, state: usize, moment: u64) -> bool {
        self.p[state] && (self.node.operation == 5 || !self.q[state] && moment <= u64::from(self.node.c))
    }
}

/// State and duration at each position.
pub fn positions(bytes: &[u8]) -> Vec<(usize, u64)> {
    let duration = |at: &[u8]| u64::from(word(at, 2)) << 16 | u64::from(word(at, 4));
    bytes.chunks_exact(6).map(|at| (usize::from(word(at, 0)), duration(at))).collect()
}

fn leads(arrow: &Arrow, start: usize, end: usize, duration: u64) -> bool {
    let ends = (usize::from(arrow.start), usize::from(arrow.end));
    let within = u64::from(arrow.fewest) <= duration && (arrow.most == NO_END || duration <= u64::from(arrow.most));
    ends == (start, end) && within
}

/// Ends the test if the run is no true reason at that state.
pub fn judge(until: &Until, arrows: &[Arrow], state: usize, run: &[(usize, u64)]) {
    assert_eq!(run[0].0, state);
    let mut moment = 0;
    for step in run.windows(2) {
        let ((start, duration), (end, _)) = (step[0], step[1]);
        assert!(until.goes_on(start, moment), "{start} at {moment} in {run:?}");
        assert!(arrows.iter().any(|arrow| leads(arrow, start, end, duration)), "{start} to {end} in {run:?}");
        moment += duration;
    }
    let (last, duration) = run[run.len() - 1];
    assert_eq!(duration, 0);
    assert!(until.ends(last, moment), "{last} at {moment} in {run:?}");
}
