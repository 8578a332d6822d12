//! What a call with one output answers, of either program: the outcome, and how many bytes it wrote.

use doilystrand::{Refusal, Run};

use crate::calls::outcome::Outcome;

pub trait Told {
    fn told(self) -> (Outcome, usize);
}

impl Told for oracle::Written {
    fn told(self) -> (Outcome, usize) {
        (self.outcome.into(), self.written)
    }
}

/// The wrapper gives what was written, or a refusal.
impl<T: Front> Told for Result<T, Refusal> {
    fn told(self) -> (Outcome, usize) {
        match self {
            Ok(written) => (Outcome::ACCEPTED, written.size()),
            Err(refusal) => (refusal.outcome().into(), 0),
        }
    }
}

/// The part of the output that was written.
pub trait Front {
    fn size(&self) -> usize;
}

impl Front for Run<'_> {
    fn size(&self) -> usize {
        self.bytes().len()
    }
}

impl Front for &[u8] {
    fn size(&self) -> usize {
        self.len()
    }
}

impl Front for &str {
    fn size(&self) -> usize {
        self.len()
    }
}
