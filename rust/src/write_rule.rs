//! Write rule, over a lent output.

use crate::written::front;
use crate::{call, Refusal};

/// Writes a rule back as the one text of its tree, whatever the order of its nodes, to the front of the output.
///
/// It wants as many bytes of output as the text has; [`MAX_RULE_TEXT`](crate::MAX_RULE_TEXT) are always enough. The
/// rest of the output is left as lent, and all of it on a refusal. [`text_of`](crate::text_of) does the same with an
/// output of its own.
///
/// # Errors
///
/// The refusal: one of the rule's own, 10 to 16, then 66 if the output is shorter than the text.
///
/// ```
/// use doilystrand::write_rule;
///
/// let rule = [1, 0, 0, 0, 23, 0, 2, 1, 0, 0, 15, 0, 0, 0, 0, 2, 0, 0, 0, 0, 0, 0, 0];
/// let mut output = [0; 4];
/// assert_eq!(write_rule(&rule, &mut output)?, "!L15");
///
/// let refusal = write_rule(&rule, &mut output[..3]).unwrap_err();
/// assert_eq!(refusal.to_string(), "refused 66 at 0 5: output short (a buffer)");
/// # Ok::<(), doilystrand::Refusal>(())
/// ```
pub fn write_rule<'a>(rule: &[u8], output: &'a mut [u8]) -> Result<&'a str, Refusal> {
    // SAFETY: each pointer comes with the length of its own slice, and the one that is written to overlaps no other.
    let coded = unsafe { call::doilystrand_write_rule(rule.as_ptr(), rule.len(), output.as_mut_ptr(), output.len()) };
    front(coded, &[10..=16, 66..=66], output).map(ascii)
}

fn ascii(text: &[u8]) -> &str {
    if let Some(byte) = text.iter().find(|byte| !byte.is_ascii()) {
        panic!("the library writes byte {byte} in a text, which is not ASCII");
    }
    std::str::from_utf8(text).expect("ASCII is UTF-8")
}

#[cfg(test)]
mod tests {
    use super::*;
    use crate::samples::WITHIN_13;
    use crate::Outcome;

    const LENT: [u8; 20] = [77; 20];

    /// What is written, or number, place and entry; so much output is lent, and what is not written is kept.
    fn write(rule: &[u8], output: usize) -> Result<String, (u32, u32, u32)> {
        let mut lent = LENT;
        let text = write_rule(rule, &mut lent[..output]).map(str::to_string);
        assert_eq!(lent[text.as_ref().map_or(0, String::len)..], LENT[text.as_ref().map_or(0, String::len)..]);
        text.map_err(|refusal| {
            let Outcome { number, place, entry } = refusal.outcome();
            (number, place, entry)
        })
    }

    #[test]
    fn rules_become_texts() {
        for output in [16, 17, 20] {
            assert_eq!(write(WITHIN_13, output), Ok("A(true U<=13 L2)".to_string()));
        }
        let second_first =
            [1, 0, 0, 0, 31, 0, 3, 1, 0, 0, 2, 0, 0, 0, 0, 0, 0, 0, 0, 0, 0, 0, 0, 6, 1, 0, 1, 0, 0, 0, 13];
        assert_eq!(write(&second_first, 20), Ok("A(true U<=13 L2)".to_string()));
    }

    #[test]
    fn refusals_are_given() {
        assert_eq!(write(WITHIN_13, 15), Err((66, 0, 5)));
        assert_eq!(write(WITHIN_13, 0), Err((66, 0, 5)));
        assert_eq!(write(&[], 0), Err((10, 0, 3)));
        assert_eq!(write(&WITHIN_13[..30], 20), Err((12, 0, 3)));
        let mut label_16 = WITHIN_13.to_vec();
        label_16[18] = 16;
        assert_eq!(write(&label_16, 0), Err((14, 1, 3)));
    }

    #[test]
    #[should_panic = "the library writes byte 128 in a text, which is not ASCII"]
    fn a_strange_byte_panics() {
        let _ = ascii(b"L1\x80");
    }
}
