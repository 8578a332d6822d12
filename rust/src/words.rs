//! What an outcome says in words. The list of them stands in the library.

use crate::call::{self, CodedWords};
use crate::Outcome;

/// The words of an outcome: the papers' own sentence, which paper was wrong, and what the place counts.
///
/// ```
/// let words = doilystrand::Outcome { number: 9, place: 2, entry: 1 }.words();
/// assert_eq!(words.sentence(), "state without an outgoing arrow");
/// assert_eq!(words.paper(), "chart or detail");
/// assert_eq!(words.counts(), "state");
/// ```
#[derive(Clone, Debug)]
pub struct Words {
    coded: CodedWords,
}

impl Outcome {
    /// Its number's sentence, its entry's paper and what its place counts.
    #[must_use]
    pub fn words(self) -> Words {
        // SAFETY: numbers go in, and bytes come back by value.
        Words { coded: unsafe { call::doilystrand_words_of(self) } }
    }
}

impl Words {
    /// What is wrong, `"state without an outgoing arrow"` for one; empty for success, and for a number that no call
    /// answers.
    #[must_use]
    pub fn sentence(&self) -> &str {
        text(&self.coded.sentence)
    }

    /// Which paper was wrong: `"none"`, `"chart or detail"`, `"overview"`, `"rule"`, `"map"` or `"a buffer"`.
    #[must_use]
    pub fn paper(&self) -> &str {
        text(&self.coded.paper)
    }

    /// What the place is the number of, `"arrow"` for one; empty where the papers name none, and the place is 0.
    #[must_use]
    pub fn counts(&self) -> &str {
        text(&self.coded.counts)
    }
}

/// What stands before the zeros.
fn text(filled: &[u8]) -> &str {
    let size = filled.iter().position(|&byte| byte == 0).expect("the library ends each text with a zero");
    std::str::from_utf8(&filled[..size]).expect("the library's words are UTF-8")
}

#[cfg(test)]
mod tests {
    use super::*;

    fn told(number: u32, entry: u32) -> [String; 3] {
        let words = Outcome { number, place: 0, entry }.words();
        [words.sentence(), words.paper(), words.counts()].map(str::to_string)
    }

    #[test]
    fn words_are_the_papers() {
        assert_eq!(told(1, 1), ["chart under 9 bytes", "chart or detail", ""]);
        assert_eq!(told(1, 2), ["chart under 9 bytes", "overview", ""]);
        assert_eq!(told(17, 5), ["marks table under k × n bytes", "a buffer", ""]);
        assert_eq!(told(22, 4), ["labels differ", "map", "detail state"]);
        assert_eq!(told(23, 1), ["arrow not covered", "chart or detail", "detail arrow"]);
        assert_eq!(told(64, 3), ["text not of the grammar", "rule", "byte"]);
    }

    #[test]
    fn what_no_call_answers_is_empty() {
        assert_eq!(told(0, 0), ["", "none", ""]);
        for number in [24, 40, 67, 99, u32::MAX] {
            assert_eq!(told(number, 6), ["", "", ""]);
        }
    }
}
