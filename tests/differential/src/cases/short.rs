//! All texts of up to four bytes, over every byte that the grammar has and one that it has not.

use crate::cases::case::{Case, Lent};

const BYTES: &[u8; 28] = b"trueLEAU!()&|<>= 0123456789\x80";

/// Of none, one, two, three and four bytes.
pub const COUNT: u64 = 1 + 28 + 28 * 28 + 28 * 28 * 28 + 28 * 28 * 28 * 28;

/// More than the rule of any of them takes, which is 31 bytes.
const OUTPUT: Lent = Lent { length: 40, fill: 0x7E47 };

/// The shorter texts have the lower numbers.
fn text(number: u64) -> Vec<u8> {
    let (mut rest, mut longer, mut length) = (number, 1, 0);
    while rest >= longer {
        rest -= longer;
        longer *= BYTES.len() as u64;
        length += 1;
    }
    let mut text = vec![0; length];
    for byte in text.iter_mut().rev() {
        *byte = BYTES[(rest % BYTES.len() as u64) as usize];
        rest /= BYTES.len() as u64;
    }
    text
}

pub fn case(number: u64) -> Case {
    Case::Read { text: text(number), output: OUTPUT }
}

#[cfg(test)]
mod tests {
    use super::{text, BYTES, COUNT};
    use std::collections::BTreeSet;

    #[test]
    fn every_text_has_one_number() {
        assert_eq!((COUNT, text(0), text(COUNT - 1)), (637_421, vec![], vec![0x80; 4]));
        assert_eq!(text(COUNT).len(), 5);
        let all: BTreeSet<Vec<u8>> = (0..COUNT).map(text).collect();
        assert_eq!(all.len() as u64, COUNT);
        assert!(all.iter().flatten().all(|byte| BYTES.contains(byte)));
        for typed in ["true", "L15", "!!L0", "(((("] {
            assert!(all.contains(typed.as_bytes()), "{typed}");
        }
    }

    /// The bytes of texts that have every form of a formula, but for the last.
    #[test]
    fn the_grammar_has_no_other_bytes() {
        let forms = "true L0 ! (&) (|) E(U<=0123456789) A(U>=0)";
        let used: BTreeSet<u8> = forms.bytes().collect();
        assert!(used.iter().eq(BYTES[..27].iter().collect::<BTreeSet<_>>()));
    }
}
