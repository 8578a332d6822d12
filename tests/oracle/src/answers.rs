//! What the calls answer.

use crate::entry;

/// Number and place of a refusal, and which paper was wrong; all 0 on success.
#[derive(Clone, Copy, Debug, PartialEq, Eq)]
pub struct Outcome {
    pub number: u32,
    pub place: u32,
    pub entry: u32,
}

impl Outcome {
    pub(crate) const SUCCESS: Outcome = Outcome { number: 0, place: 0, entry: entry::NONE };

    pub(crate) fn at(number: u32, place: usize) -> Outcome {
        Outcome { number, place: place as u32, entry: entry::of_row(number) }
    }

    /// A refusal that names no offender.
    pub(crate) fn at_0(number: u32) -> Outcome {
        Outcome::at(number, 0)
    }

    pub(crate) fn refused(self) -> bool {
        self.number != 0
    }
}

/// What a call with one output answers: the bytes written are 0 on a refusal.
#[derive(Clone, Copy, Debug, PartialEq, Eq)]
pub struct Written {
    pub outcome: Outcome,
    pub written: usize,
}

#[derive(Clone, Copy, Debug, PartialEq, Eq)]
pub enum Kind {
    AllRuns,
    SomeRun,
    Both,
    Neither,
}

/// The kind is `Neither` on a refusal.
#[derive(Clone, Copy, Debug, PartialEq, Eq)]
pub struct KindAnswer {
    pub outcome: Outcome,
    pub kind: Kind,
}

#[derive(Clone, Copy, Debug, PartialEq, Eq)]
pub enum Choice {
    Overview,
    Detail,
}

/// One arrow as a chart's bytes give it: start, end, fewest, most (65,535: no end).
#[derive(Clone, Copy, Debug, PartialEq, Eq)]
pub struct ArrowWords {
    pub start: u16,
    pub end: u16,
    pub fewest: u16,
    pub most: u16,
}
