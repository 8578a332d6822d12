//! What the reads met: each way in which a text is none, and texts about the limits.

use crate::bytes::rule;
use crate::calls::compare::Answer;
use crate::calls::rule_met::{self, only};
use crate::cases::case::Case;

const KINDS: [&str; 22] = [
    "64 where the text ends",
    "64 at byte 0",
    "64 behind a whole formula",
    "64 at a digit that no label goes on with",
    "64 at a digit behind a bound of 0",
    "64 at the fifth digit of a bound",
    "64 at the sixth digit of a bound",
    "64 at a digit behind an exact bound of 0",
    "64 at the third digit of an exact bound",
    "64 at the fourth digit of an exact bound",
    "64 at a space",
    "64 at a byte below 32",
    "64 at a byte above 126",
    "64 past 64 nodes",
    "64 at byte 4,095 or later",
    "65 of 4,097 bytes",
    "65 of more bytes",
    "65 of bytes, not of the grammar",
    "65 of 65 nodes",
    "65 of more nodes",
    "65 of nodes, 4,096 bytes",
    "65 of nodes, output empty",
];

/// All that is to be met.
pub fn all() -> impl Iterator<Item = &'static str> {
    rule_met::all().chain(KINDS)
}

/// How many nodes are begun in these bytes.
fn begun(text: &[u8]) -> usize {
    let begins = |at: &usize| match text[*at] {
        b'(' => !matches!(text[..*at].last(), Some(b'E' | b'A')),
        byte => b"tL!EA".contains(&byte),
    };
    (0..text.len()).filter(begins).count()
}

/// The digits at the end of these bytes.
fn digits(text: &[u8]) -> &[u8] {
    let count = text.iter().rev().take_while(|byte| byte.is_ascii_digit()).count();
    &text[text.len() - count..]
}

fn is_formula(text: &[u8]) -> bool {
    oracle::read_rule(text, &mut []).outcome.number != 64
}

/// Of a text that is refused with 64 at this place.
fn stopped(text: &[u8], place: usize) -> Vec<&'static str> {
    let (before, rest) = text.split_at(place.min(text.len()));
    let mut met = only(&[(begun(before) > 64, "64 past 64 nodes"), (place >= 4_095, "64 at byte 4,095 or later")]);
    match rest.first() {
        Some(&byte) => met.extend(stopped_at(byte, before)),
        None => met.push("64 where the text ends"),
    }
    met
}

/// By the byte and those before it.
fn stopped_at(byte: u8, before: &[u8]) -> Vec<&'static str> {
    let number = digits(before);
    let opening = &before[..before.len() - number.len()];
    let is_digit = byte.is_ascii_digit();
    let (in_label, in_exact) = (is_digit && opening.ends_with(b"L"), is_digit && opening.ends_with(b"=="));
    let in_bound = is_digit && !in_label && !in_exact;
    only(&[
        (before.is_empty(), "64 at byte 0"),
        (is_formula(before), "64 behind a whole formula"),
        (in_label && !number.is_empty(), "64 at a digit that no label goes on with"),
        (in_bound && number == b"0", "64 at a digit behind a bound of 0"),
        (in_bound && number.len() == 4, "64 at the fifth digit of a bound"),
        (in_bound && number.len() == 5, "64 at the sixth digit of a bound"),
        (in_exact && number == b"0", "64 at a digit behind an exact bound of 0"),
        (in_exact && number.len() == 2, "64 at the third digit of an exact bound"),
        (in_exact && number.len() == 3, "64 at the fourth digit of an exact bound"),
        (byte == b' ', "64 at a space"),
        (byte < 32, "64 at a byte below 32"),
        (byte > 126, "64 at a byte above 126"),
    ])
}

/// Of a text that is refused with 65.
fn too_much(text: &[u8], lent: usize) -> Vec<&'static str> {
    if text.len() > 4_096 {
        return only(&[
            (text.len() == 4_097, "65 of 4,097 bytes"),
            (text.len() > 4_097, "65 of more bytes"),
            (oracle::read_rule(&text[..4_096], &mut []).outcome.place < 4_096, "65 of bytes, not of the grammar"),
        ]);
    }
    only(&[
        (begun(text) == 65, "65 of 65 nodes"),
        (begun(text) > 65, "65 of more nodes"),
        (text.len() == 4_096, "65 of nodes, 4,096 bytes"),
        (lent == 0, "65 of nodes, output empty"),
    ])
}

/// Those that a read met.
pub fn kinds(case: &Case, answer: &Answer) -> Vec<&'static str> {
    let (Case::Read { text, output: lent }, Answer::Turned { outcome, written, output }) = (case, answer) else {
        return Vec::new();
    };
    match outcome.number {
        0 => rule_met::accepted(&rule::nodes(&output[..*written]), text.len(), lent.length, *written),
        64 => stopped(text, outcome.place as usize),
        65 => too_much(text, lent.length),
        66 => rule_met::output_short(lent.length, 7 + 8 * begun(text)),
        _ => Vec::new(),
    }
}

#[cfg(test)]
mod tests {
    use super::{all, kinds};
    use crate::calls::compare::oracle;
    use crate::calls::met::Met;
    use crate::cases::case::{Case, Lent};
    use crate::random::typed;

    fn read(text: &str, output: usize) -> Vec<&'static str> {
        let case = Case::Read { text: text.into(), output: Lent::new(output, 1) };
        kinds(&case, &oracle::run(&case))
    }

    #[test]
    fn each_read_counts_for_its_kinds() {
        assert_eq!(read("L1", 15), ["label of one digit", "1 node", "output just enough"]);
        let until = ["true", "label of two digits", "A at least", "bound 65,535", "output to spare"];
        assert_eq!(read("A(true U>=65535 L10)", 32), until);
        let exact = ["true", "label of two digits", "E exactly", "exactly 255", "output to spare"];
        assert_eq!(read("E(true U==255 L10)", 32), exact);
        assert_eq!(read("!true", 22), ["output a byte short"]);
        assert_eq!(read("!true", 0), ["output empty"]);
        assert_eq!(read("", 9), ["64 where the text ends"]);
        assert_eq!(read("L16", 9), ["64 behind a whole formula", "64 at a digit that no label goes on with"]);
        assert_eq!(read("E(L1 U<=00", 9), ["64 at a digit behind a bound of 0"]);
        assert_eq!(read("E(L1 U<=65536", 9), ["64 at the fifth digit of a bound"]);
        assert_eq!(read("E(L1 U<=123456", 9), ["64 at the sixth digit of a bound"]);
        assert_eq!(read("E(L1 U==01", 9), ["64 at a digit behind an exact bound of 0"]);
        assert_eq!(read("E(L1 U==256", 9), ["64 at the third digit of an exact bound"]);
        assert_eq!(read("E(L1 U==1000", 9), ["64 at the fourth digit of an exact bound"]);
        assert_eq!(read("( L1", 9), ["64 at a space"]);
        assert_eq!(read(&("!".repeat(70) + "\n"), 9), ["64 past 64 nodes", "64 at a byte below 32"]);
    }

    #[test]
    fn each_limit_counts() {
        let nots = |count: usize, rest: &str| "!".repeat(count) + rest;
        assert_eq!(read(&nots(64, "true"), 0), ["65 of 65 nodes", "65 of nodes, output empty"]);
        assert_eq!(read(&nots(4_092, "true"), 9), ["65 of more nodes", "65 of nodes, 4,096 bytes"]);
        assert_eq!(read(&nots(4_097, ""), 9), ["65 of 4,097 bytes"]);
        assert_eq!(read(&nots(4_090, "?????????"), 9), ["65 of more bytes", "65 of bytes, not of the grammar"]);
        assert_eq!(read(&nots(4_095, "?"), 9), ["64 past 64 nodes", "64 at byte 4,095 or later"]);
    }

    #[test]
    fn a_kind_is_missing_until_it_is_met() {
        let mut every = Met::of(all());
        assert!(every.missing().eq(all()));
        for number in 0..20_000 {
            let case = typed::random(1, number);
            let kinds = kinds(&case, &oracle::run(&case));
            every.add(&kinds);
            assert!(kinds.iter().all(|kind| all().any(|known| known == *kind)), "{kinds:?}");
            assert!(every.missing().all(|kind| !kinds.contains(&kind)));
        }
        assert!(every.missing().count() < 8, "{}", every.text());
    }
}
