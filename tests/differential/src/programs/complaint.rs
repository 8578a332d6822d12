//! What a program says on standard error: of a refusal the library's words, in one line.

use crate::calls::outcome::Outcome;
use crate::calls::words::Words;

/// Of a program that has to print this text; nothing where the text is no refusal.
pub fn of(program: &str, text: &[u8]) -> String {
    refused(text).map_or(String::new(), |outcome| line(program, outcome, &Words::of(outcome)))
}

/// The outcome in the line that a refusal begins with, "refused 9 at 2 1".
fn refused(text: &[u8]) -> Option<Outcome> {
    let line = text.split(|&byte| byte == b'\n').next()?;
    let (number, rest) = std::str::from_utf8(line).ok()?.strip_prefix("refused ")?.split_once(" at ")?;
    let (place, entry) = rest.split_once(' ')?;
    Some(Outcome { number: number.parse().ok()?, place: place.parse().ok()?, entry: entry.parse().ok()? })
}

fn line(program: &str, outcome: Outcome, Words { sentence, paper, counts }: &Words) -> String {
    let counted = if counts.is_empty() { String::new() } else { format!(", {counts} {}", outcome.place) };
    format!("{program}: {sentence} ({paper}{counted})\n")
}

#[cfg(test)]
mod tests {
    use super::{line, of, refused, Outcome, Words};

    #[test]
    fn the_words_of_the_refused_line() {
        let words = |counts: &str| Words { sentence: "a sentence".into(), paper: "rule".into(), counts: counts.into() };
        let outcome = Outcome { number: 14, place: 7, entry: 3 };
        assert_eq!(line("desk", outcome, &words("node")), "desk: a sentence (rule, node 7)\n");
        assert_eq!(line("desk_why", outcome, &words("")), "desk_why: a sentence (rule)\n");
        assert_eq!(refused(b"refused 14 at 7 3\nL16\n  ^\n"), Some(outcome));
    }

    #[test]
    fn nothing_of_another_text() {
        for text in ["", "states 3 nodes 3\n0 111\n", "row\n", "refused 9 at 2\n", "refused\n", "A(true U<=14 L2)\n"] {
            assert_eq!(of("desk", text.as_bytes()), "", "{text}");
        }
    }
}
