//! What a call with one output answers: how many bytes it wrote at the front, or a refusal.

use std::ops::RangeInclusive;

use crate::call::CodedWritten;
use crate::Refusal;

/// The bytes that were written, or the refusal, where it is one that a call with these numbers can answer.
pub fn front<'a>(coded: CodedWritten, numbers: &[RangeInclusive<u32>], output: &'a [u8]) -> Result<&'a [u8], Refusal> {
    let CodedWritten { outcome, written } = coded;
    if let Err(refusal) = outcome.of_call(numbers).into_result() {
        assert!(written == 0, "the library answers {written} bytes written, and yet {outcome}");
        return Err(refusal);
    }
    Ok(output.get(..written).unwrap_or_else(|| {
        panic!("the library answers {written} bytes written, in an output of {} bytes", output.len())
    }))
}

#[cfg(test)]
mod tests {
    use super::*;
    use crate::Outcome;

    const OUTPUT: [u8; 6] = [1, 2, 3, 4, 5, 6];

    fn of(number: u32, place: u32, entry: u32, written: usize) -> Result<&'static [u8], Outcome> {
        let coded = CodedWritten { outcome: Outcome { number, place, entry }, written };
        front(coded, &[64..=66], &OUTPUT).map_err(|refusal| refusal.outcome())
    }

    #[test]
    fn the_front_is_what_was_written() {
        for written in [0, 4, 6] {
            assert_eq!(of(0, 0, 0, written), Ok(&OUTPUT[..written]));
        }
        assert_eq!(of(64, 3, 3, 0), Err(Outcome { number: 64, place: 3, entry: 3 }));
        assert_eq!(of(66, 0, 5, 0), Err(Outcome { number: 66, place: 0, entry: 5 }));
    }

    #[test]
    #[should_panic = "the library answers 6 bytes written, and yet refused 64 at 0 3"]
    fn bytes_of_a_refusal_panic() {
        let _ = of(64, 0, 3, 6);
    }

    #[test]
    #[should_panic = "the library answers 7 bytes written, in an output of 6 bytes"]
    fn bytes_past_the_output_panic() {
        let _ = of(0, 0, 0, 7);
    }

    #[test]
    #[should_panic = "the library answers number 63 at place 2 with entry 3, which this call never does"]
    fn another_calls_number_panics() {
        let _ = of(63, 2, 3, 0);
    }
}
