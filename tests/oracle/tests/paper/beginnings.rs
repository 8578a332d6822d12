//! Read rule against the definition: a place is the length of the longest beginning that some formula's text has.

use crate::text_call::read;
use crate::told::Told;
use std::collections::HashSet;

type Texts = HashSet<Vec<u8>>;

/// The letters of the grammar, some digits, and a byte that is in no text.
const LETTERS: &[u8] = b"trueLEAU!()&|<>= 01569\x80";

/// Texts one behind the other, cut after `most` bytes. What stands behind a cut changes nothing.
fn joined(pieces: &[&Texts], most: usize) -> Texts {
    let mut whole = Texts::from([vec![]]);
    for piece in pieces {
        let (cut, open): (Texts, Texts) = whole.into_iter().partition(|text| text.len() == most);
        let longer = |text: &Vec<u8>, next: &Vec<u8>| text.iter().chain(next).copied().take(most).collect::<Vec<u8>>();
        whole = open.iter().flat_map(|text| piece.iter().map(move |next| longer(text, next))).chain(cut).collect();
    }
    whole
}

/// What the grammar's lines make of these formulas.
fn one_line_more(formulas: &Texts, most: usize) -> Texts {
    let word = |word: &str| Texts::from([word.as_bytes().to_vec()]);
    let numbers = |to: u32| (0..=to).map(|number| number.to_string().into_bytes()).collect::<Texts>();
    let (labels, bounds, exact_bounds) = (numbers(15), numbers(65_535), numbers(255));
    let mut made = joined(&[&word("true")], most);
    made.extend(joined(&[&word("L"), &labels], most));
    made.extend(joined(&[&word("!"), formulas], most));
    for sign in [" & ", " | "] {
        made.extend(joined(&[&word("("), formulas, &word(sign), formulas, &word(")")], most));
    }
    for quantifier in ["E(", "A("] {
        for (sign, bounds) in [(" U<=", &bounds), (" U>=", &bounds), (" U==", &exact_bounds)] {
            let (left, right) = ([&word(quantifier), formulas, &word(sign)], [&word(" "), formulas, &word(")")]);
            made.extend(joined(&[left.as_slice(), &[bounds], &right].concat(), most));
        }
    }
    made
}

/// The texts of all formulas, each cut after `most` bytes: from none, until a further line adds nothing.
fn cut_texts(most: usize) -> Texts {
    let mut texts = Texts::new();
    loop {
        let more = one_line_more(&texts, most);
        if more == texts {
            return texts;
        }
        texts = more;
    }
}

/// All beginnings of the texts, the empty one and themselves included.
fn beginnings(texts: &Texts) -> Texts {
    texts.iter().flat_map(|text| (0..=text.len()).map(|length| text[..length].to_vec())).collect()
}

/// What read rule answers by the definition: None where it takes the text.
fn by_definition(text: &[u8], texts: &Texts, beginnings: &Texts) -> Option<Told> {
    let begun = (0..=text.len()).rev().find(|&length| beginnings.contains(&text[..length]));
    let place = begun.expect("the empty text begins every other") as u32;
    (!texts.contains(text)).then_some((64, place, 3))
}

/// Every text of this length over the letters.
fn every_text(length: usize) -> Vec<Vec<u8>> {
    (0..length).fold(vec![vec![]], |shorter, _| {
        shorter
            .iter()
            .flat_map(|text| LETTERS.iter().map(move |&letter| [text.as_slice(), &[letter]].concat()))
            .collect()
    })
}

/// Texts cut after 4 bytes: those of up to 3 are whole.
#[test]
fn every_text_of_up_to_3_bytes() {
    let texts = cut_texts(4);
    let beginnings = beginnings(&texts);
    for length in 0..=3 {
        for text in every_text(length) {
            assert_eq!(read(&text).err(), by_definition(&text, &texts, &beginnings), "{text:?}");
        }
    }
}

/// Every byte behind every beginning of up to 5 bytes.
#[test]
fn every_byte_behind_a_beginning() {
    let texts = cut_texts(7);
    let beginnings = beginnings(&texts);
    for begun in beginnings.iter().filter(|begun| begun.len() <= 5) {
        for byte in 0..=255 {
            let text = [begun.as_slice(), &[byte]].concat();
            assert_eq!(read(&text).err(), by_definition(&text, &texts, &beginnings), "{text:?}");
        }
    }
}

/// A bound or a label number in a text: these digits by the definition, all that stands behind them given.
fn digits(before: &str, digits: &str, behind: &str, numbers: &HashSet<String>, begun: &HashSet<String>) {
    let text = format!("{before}{digits}{behind}");
    let place = match numbers.contains(digits) {
        true => None,
        false => (0..=digits.len()).rev().find(|&length| begun.contains(&digits[..length])),
    };
    assert_eq!(read(&text).err(), place.map(|place| (64, (before.len() + place) as u32, 3)), "{text}");
}

fn every_number(most: u32, length: usize, before: &str, behind: &str) {
    let numbers: HashSet<String> = (0..=most).map(|number| number.to_string()).collect();
    let begun =
        numbers.iter().flat_map(|number| (0..=number.len()).map(|length| number[..length].to_string())).collect();
    digits(before, "", behind, &numbers, &begun);
    for length in 1..=length {
        for number in 0..10usize.pow(length as u32) {
            digits(before, &format!("{number:0length$}"), behind, &numbers, &begun);
        }
    }
}

#[test]
fn every_label_number_of_up_to_4_digits() {
    every_number(15, 4, "L", "");
    every_number(15, 4, "(L", " | true)");
}

#[test]
fn every_bound_of_up_to_5_digits() {
    every_number(65_535, 5, "A(true U<=", " L2)");
    every_number(65_535, 3, "!E(!L3 U>=", " (L2 & true))");
}

#[test]
fn every_exact_bound_of_up_to_5_digits() {
    every_number(255, 5, "A(true U==", " L2)");
    every_number(255, 3, "!E(!L3 U==", " (L2 & true))");
}

/// Behind each number all ten digits.
#[test]
fn every_bound_of_6_digits_that_begins_as_one_of_5() {
    for number in (10_000..=65_535).step_by(7).chain([65_535]) {
        for digit in 0..10 {
            assert_eq!(read(format!("E(L1 U>={number}{digit} L2)")), Err((64, 13, 3)), "{number}{digit}");
        }
    }
}
