//! Read rule, over a lent output.

use crate::written::front;
use crate::{call, Refusal};

/// Reads a rule typed as text and writes its bytes to the front of the output: operands before their node, left first.
///
/// It wants 7 + 8k bytes of output for k nodes; [`MAX_RULE`](crate::MAX_RULE) are always enough. The text is read to
/// its last byte: of a line, the end has to be taken off before. The rest of the output is left as lent, and all of it
/// on a refusal. [`rule_of`](crate::rule_of) does the same with an output of its own.
///
/// # Errors
///
/// The refusal, in this order: 65 above [`MAX_TEXT`](crate::MAX_TEXT) bytes; 64 where it is no text of the grammar, the
/// place being the first byte that no formula could go on from, or the length if it only stops early; 65 above 64
/// nodes; 66 if the output is short.
///
/// ```
/// use doilystrand::read_rule;
///
/// let mut output = [77; 24];
/// let rule = read_rule(b"!L15", &mut output)?;
/// assert_eq!(rule, [1, 0, 0, 0, 23, 0, 2, 1, 0, 0, 15, 0, 0, 0, 0, 2, 0, 0, 0, 0, 0, 0, 0]);
///
/// let refusal = read_rule(b"!L16", &mut output).unwrap_err();
/// assert_eq!(refusal.to_string(), "refused 64 at 3 3: text not of the grammar (rule, byte 3)");
/// # Ok::<(), doilystrand::Refusal>(())
/// ```
pub fn read_rule<'a>(text: &[u8], output: &'a mut [u8]) -> Result<&'a [u8], Refusal> {
    // SAFETY: each pointer comes with the length of its own slice, and the one that is written to overlaps no other.
    let coded = unsafe { call::doilystrand_read_rule(text.as_ptr(), text.len(), output.as_mut_ptr(), output.len()) };
    front(coded, &[64..=66], output)
}

#[cfg(test)]
mod tests {
    use super::*;
    use crate::samples::WITHIN_13;
    use crate::Outcome;

    const LENT: [u8; 40] = [77; 40];

    /// What is written, or number, place and entry; so much output is lent, and what is not written is kept.
    fn read(text: &str, output: usize) -> Result<Vec<u8>, (u32, u32, u32)> {
        let mut lent = LENT;
        let rule = read_rule(text.as_bytes(), &mut lent[..output]).map(<[u8]>::to_vec);
        assert_eq!(lent[rule.as_ref().map_or(0, Vec::len)..], LENT[rule.as_ref().map_or(0, Vec::len)..]);
        rule.map_err(|refusal| {
            let Outcome { number, place, entry } = refusal.outcome();
            (number, place, entry)
        })
    }

    #[test]
    fn texts_become_rules() {
        for output in [31, 32, 40] {
            assert_eq!(read("A(true U<=13 L2)", output), Ok(WITHIN_13.to_vec()));
        }
    }

    #[test]
    fn refusals_are_given() {
        assert_eq!(read("", 40), Err((64, 0, 3)));
        assert_eq!(read("A(true U<=13 L2", 40), Err((64, 15, 3)));
        assert_eq!(read("A(true U<=13 L2)\n", 40), Err((64, 16, 3)));
        assert_eq!(read("A(true U<=13 L2)", 30), Err((66, 0, 5)));
        assert_eq!(read("true", 0), Err((66, 0, 5)));
        assert_eq!(read(&("!".repeat(64) + "true"), 0), Err((65, 0, 3)));
    }
}
