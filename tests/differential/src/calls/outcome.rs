//! The outcome that every call but row answers, of either program.

use std::fmt;

#[derive(Clone, Copy, Debug, PartialEq, Eq)]
pub struct Outcome {
    pub number: u32,
    pub place: u32,
    pub entry: u32,
}

impl Outcome {
    pub const ACCEPTED: Outcome = Outcome { number: 0, place: 0, entry: 0 };
}

impl From<doilystrand::Outcome> for Outcome {
    fn from(outcome: doilystrand::Outcome) -> Outcome {
        Outcome { number: outcome.number, place: outcome.place, entry: outcome.entry }
    }
}

impl From<oracle::Outcome> for Outcome {
    fn from(outcome: oracle::Outcome) -> Outcome {
        Outcome { number: outcome.number, place: outcome.place, entry: outcome.entry }
    }
}

impl fmt::Display for Outcome {
    fn fmt(&self, to: &mut fmt::Formatter<'_>) -> fmt::Result {
        write!(to, "number {}, place {}, entry {}", self.number, self.place, self.entry)
    }
}
