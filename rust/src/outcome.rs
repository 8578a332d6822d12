//! What a call answers: accepted, or refused with a number, a place and an entry.

use std::error::Error;
use std::fmt;
use std::ops::RangeInclusive;

/// Number and place of a refusal, and which paper was wrong: 1 chart or detail, 2 overview, 3 rule, 4 map, 5 a buffer.
/// All are 0 on success.
///
/// ```
/// let outcome = doilystrand::Outcome { number: 9, place: 2, entry: 1 };
/// assert!(!outcome.is_accepted());
/// assert_eq!(outcome.to_string(), "refused 9 at 2 1");
/// ```
#[must_use = "a refusal is told nowhere else"]
#[repr(C)]
#[derive(Clone, Copy, Debug, PartialEq, Eq)]
pub struct Outcome {
    pub number: u32,
    pub place: u32,
    pub entry: u32,
}

impl Outcome {
    /// Whether nothing was refused.
    #[must_use]
    pub fn is_accepted(self) -> bool {
        self.number == 0
    }

    /// The outcome, where it is one that a call with these numbers can answer.
    pub(crate) fn of_call(self, numbers: &[RangeInclusive<u32>]) -> Outcome {
        let Outcome { number, place, entry } = self;
        let known = if number == 0 {
            (place, entry) == (0, 0)
        } else {
            numbers.iter().any(|range| range.contains(&number)) && (1..=5).contains(&entry)
        };
        assert!(
            known,
            "the library answers number {number} at place {place} with entry {entry}, which this call never does"
        );
        self
    }

    /// For `?`.
    ///
    /// # Errors
    ///
    /// The refusal, if it is one.
    pub fn into_result(self) -> Result<(), Refusal> {
        if self.is_accepted() {
            Ok(())
        } else {
            Err(Refusal { outcome: self })
        }
    }
}

/// `accepted`, or a refusal as the desk program prints it: `refused 9 at 2 1`.
impl fmt::Display for Outcome {
    fn fmt(&self, f: &mut fmt::Formatter<'_>) -> fmt::Result {
        if self.is_accepted() {
            return f.write_str("accepted");
        }
        write!(f, "refused {} at {} {}", self.number, self.place, self.entry)
    }
}

/// An outcome that is not accepted.
#[derive(Clone, Copy, Debug, PartialEq, Eq)]
pub struct Refusal {
    outcome: Outcome,
}

impl Refusal {
    /// Its number, place and entry.
    pub fn outcome(self) -> Outcome {
        self.outcome
    }
}

/// The refused line, then in words: `refused 9 at 2 1: state without an outgoing arrow (chart or detail, state 2)`.
impl fmt::Display for Refusal {
    fn fmt(&self, f: &mut fmt::Formatter<'_>) -> fmt::Result {
        let words = self.outcome.words();
        write!(f, "{}: {} ({}", self.outcome, words.sentence(), words.paper())?;
        if !words.counts().is_empty() {
            write!(f, ", {} {}", words.counts(), self.outcome.place)?;
        }
        f.write_str(")")
    }
}

impl Error for Refusal {}

#[cfg(test)]
mod tests {
    use super::*;

    const ACCEPTED: Outcome = Outcome { number: 0, place: 0, entry: 0 };

    fn refusal(number: u32, place: u32, entry: u32) -> Refusal {
        Outcome { number, place, entry }.into_result().expect_err("a refusal")
    }

    #[test]
    fn acceptance_is_no_error() {
        assert!(ACCEPTED.is_accepted());
        assert_eq!(ACCEPTED.into_result(), Ok(()));
        assert_eq!(ACCEPTED.to_string(), "accepted");
    }

    #[test]
    fn refusals_keep_number_place_and_entry() {
        assert_eq!(refusal(19, 7, 2).outcome(), Outcome { number: 19, place: 7, entry: 2 });
        assert!(!refusal(19, 7, 2).outcome().is_accepted());
    }

    #[test]
    fn refusals_are_told_in_words() {
        assert_eq!(refusal(1, 0, 2).to_string(), "refused 1 at 0 2: chart under 9 bytes (overview)");
        let uncovered = "refused 23 at 4 1: arrow not covered (chart or detail, detail arrow 4)";
        assert_eq!(refusal(23, 4, 1).to_string(), uncovered);
    }

    #[test]
    fn outcomes_of_a_call_pass() {
        for (number, place, entry) in [(0, 0, 0), (1, 0, 1), (9, 255, 2), (19, 4, 1)] {
            let outcome = Outcome { number, place, entry };
            assert_eq!(outcome.of_call(&[1..=9, 19..=19]), outcome);
        }
    }

    #[test]
    #[should_panic = "the library answers number 10 at place 0 with entry 3, which this call never does"]
    fn another_calls_number_panics() {
        let _ = Outcome { number: 10, place: 0, entry: 3 }.of_call(&[1..=9, 19..=19]);
    }

    #[test]
    #[should_panic = "the library answers number 0 at place 7 with entry 0, which this call never does"]
    fn acceptance_at_a_place_panics() {
        let _ = Outcome { number: 0, place: 7, entry: 0 }.of_call(&[1..=19]);
    }

    #[test]
    #[should_panic = "the library answers number 9 at place 2 with entry 0, which this call never does"]
    fn refusal_of_no_paper_panics() {
        let _ = Outcome { number: 9, place: 2, entry: 0 }.of_call(&[1..=19]);
    }
}
