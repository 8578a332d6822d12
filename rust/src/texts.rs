//! Rules typed as text, with outputs of their own.

use crate::{read_rule, write_rule, Refusal, MAX_RULE, MAX_RULE_TEXT};

/// The rule that a text stands for: operands before their node, left first.
///
/// # Errors
///
/// The refusal: 64 or 65. The output is large enough for every rule, so 66 doesn't occur. The place of 64 is a byte of
/// the text.
///
/// ```
/// let rule = doilystrand::rule_of("A(true U<=14 L2)")?;
/// assert_eq!(rule, [1, 0, 0, 0, 31, 0, 3, 0, 0, 0, 0, 0, 0, 0, 0, 1, 0, 0, 2, 0, 0, 0, 0, 6, 1, 0, 0, 0, 1, 0, 14]);
///
/// let refusal = doilystrand::rule_of("A(true U<=007 L2)").unwrap_err();
/// assert_eq!(refusal.to_string(), "refused 64 at 11 3: text not of the grammar (rule, byte 11)");
/// # Ok::<(), doilystrand::Refusal>(())
/// ```
pub fn rule_of(text: &str) -> Result<Vec<u8>, Refusal> {
    read_rule(text.as_bytes(), &mut [0; MAX_RULE]).map(<[u8]>::to_vec)
}

/// The one text of a rule's tree.
///
/// # Errors
///
/// The refusal: 10 to 16. The output is large enough for every text, so 66 doesn't occur.
///
/// ```
/// let rule = [1, 0, 0, 0, 15, 0, 1, 0, 0, 0, 0, 0, 0, 0, 0];
/// assert_eq!(doilystrand::text_of(&rule)?, "true");
///
/// let refusal = doilystrand::text_of(&[]).unwrap_err();
/// assert_eq!(refusal.to_string(), "refused 10 at 0 3: rule under 7 bytes (rule)");
/// # Ok::<(), doilystrand::Refusal>(())
/// ```
pub fn text_of(rule: &[u8]) -> Result<String, Refusal> {
    write_rule(rule, &mut [0; MAX_RULE_TEXT]).map(str::to_string)
}

#[cfg(test)]
mod tests {
    use super::*;
    use crate::samples::{largest_rule, longest_text};
    use crate::MAX_NODES;

    #[test]
    fn texts_come_back() {
        for text in ["true", "L0", "!L15", "(L1 & !true)", "(E(L0 U>=0 L1) | A(!L2 U<=65535 (L3 & L4)))"] {
            assert_eq!(rule_of(text).and_then(|rule| text_of(&rule)), Ok(text.to_string()));
        }
    }

    #[test]
    fn the_largest_fit() {
        assert_eq!(text_of(&largest_rule()), Ok("!".repeat(MAX_NODES - 1) + "true"));
        assert_eq!(rule_of(&("!".repeat(MAX_NODES - 1) + "true")), Ok(largest_rule()));
        let longest = longest_text();
        assert_eq!(rule_of(&longest).map(|rule| rule.len()), Ok(MAX_RULE));
        assert_eq!(rule_of(&longest).and_then(|rule| text_of(&rule)), Ok(longest));
    }
}
