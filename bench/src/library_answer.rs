//! What the library answers, as the peer's record of it, so that the two are compared whole.

use bench::peer::{Outcome, Written};
use doilystrand::Refusal;

pub fn outcome(answer: doilystrand::Outcome) -> Outcome {
    Outcome { number: answer.number, place: answer.place, entry: answer.entry }
}

/// Of a call with an output: how many of its bytes are written, or the refusal.
pub fn written(answer: Result<usize, Refusal>) -> Written {
    match answer {
        Ok(written) => Written { outcome: Outcome::ACCEPTED, written },
        Err(refusal) => Written { outcome: outcome(refusal.outcome()), written: 0 },
    }
}
