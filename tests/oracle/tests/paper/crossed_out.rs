//! Read rule against crossing out: whole formulas in a text become f until nothing more does.
//!
//! A text of the grammar is left as f alone. A beginning of one is, too, where what is open at its end also becomes f.

use crate::formulas::some_formula;
use crate::make::Numbers;
use crate::text_call::read;
use crate::told::Told;

const LINES: [&str; 10] = [
    "true",
    "!f",
    "(f & f)",
    "(f | f)",
    "E(f U<=c f)",
    "E(f U>=c f)",
    "E(f U==c f)",
    "A(f U<=c f)",
    "A(f U>=c f)",
    "A(f U==c f)",
];

/// All digits in a row make one number, or stay where they are none: a label becomes f, a bound c.
fn numbers_crossed_out(text: &str) -> String {
    let mut crossed = String::new();
    let mut rest = text;
    while let Some(at) = rest.find(|letter: char| letter.is_ascii_digit()) {
        crossed.push_str(&rest[..at]);
        let length = rest[at..].find(|letter: char| !letter.is_ascii_digit()).unwrap_or(rest.len() - at);
        let digits = &rest[at..at + length];
        let number = digits.parse().ok().filter(|number: &u32| number.to_string() == digits);
        match number {
            Some(0..=15) if crossed.ends_with('L') => crossed.replace_range(crossed.len() - 1.., "f"),
            Some(0..=65_535) if crossed.ends_with("U<=") || crossed.ends_with("U>=") => crossed.push('c'),
            Some(0..=255) if crossed.ends_with("U==") => crossed.push('c'),
            _ => crossed.push_str(digits),
        }
        rest = &rest[at + length..];
    }
    crossed + rest
}

fn formulas_crossed_out(text: &str) -> String {
    let crossed = LINES.iter().fold(text.to_string(), |text, line| text.replace(line, "f"));
    match crossed == text {
        true => crossed,
        false => formulas_crossed_out(&crossed),
    }
}

fn is_text(text: &str) -> bool {
    formulas_crossed_out(&numbers_crossed_out(text)) == "f"
}

fn begins_a_text(text: &str) -> bool {
    text.is_empty() || goes_on(&numbers_crossed_out(text))
}

/// Tries for the end of the text every beginning of every line.
fn goes_on(text: &str) -> bool {
    let crossed = formulas_crossed_out(text);
    let begun = |line: &'static str| (1..line.len()).map(move |length| &line[..length]);
    let mut open = LINES.into_iter().chain(["Lj"]).flat_map(begun).filter_map(|open| crossed.strip_suffix(open));
    crossed == "f" || open.any(|before| goes_on(&format!("{before}f")))
}

/// A text that goes wrong at some byte does at all later ones, so the place can be halved in on.
fn by_crossing_out(text: &str) -> Option<Told> {
    let lengths: Vec<usize> = (1..=text.len()).collect();
    let place = lengths.partition_point(|&length| begins_a_text(&text[..length]));
    (!is_text(text)).then_some((64, place as u32, 3))
}

fn agrees(text: &str) -> bool {
    let answer = read(text);
    assert_eq!(answer.clone().err(), by_crossing_out(text), "{text}");
    answer.is_ok()
}

const PIECES: [&str; 28] = [
    "t", "r", "u", "e", "L", "E", "A", "U", "!", "(", ")", "&", "|", "<", ">", "=", " ", "0", "1", "5", "6", "9", "25",
    "true", " U<=", " U==", "L1", "E(",
];

fn some_piece(numbers: &mut Numbers) -> &'static str {
    PIECES[numbers.below(PIECES.len() as u64) as usize]
}

/// Some bytes taken out, pieces put in, or both.
fn damaged(numbers: &mut Numbers, mut text: String) -> String {
    for _ in 0..=numbers.below(2) {
        let at = numbers.below(text.len() as u64 + 1) as usize;
        let to = (at + numbers.below(3) as usize).min(text.len());
        let piece = if numbers.below(4) == 0 { "" } else { some_piece(numbers) };
        text.replace_range(at..to, piece);
    }
    text
}

#[test]
fn damaged_texts() {
    let mut numbers = Numbers(56);
    let mut taken = 0;
    for round in 0..12_000 {
        let text = some_formula(&mut numbers, 1 + round % 9).text();
        assert!(agrees(&text));
        taken += usize::from(agrees(&damaged(&mut numbers, text)));
    }
    assert!((500..6_000).contains(&taken), "{taken}");
}

#[test]
fn pieces_in_any_order() {
    let mut numbers = Numbers(57);
    for _ in 0..20_000 {
        let count = 1 + numbers.below(8);
        agrees(&(0..count).map(|_| some_piece(&mut numbers)).collect::<String>());
    }
}

/// The end of one text behind the beginning of another.
#[test]
fn texts_put_together() {
    let mut numbers = Numbers(58);
    for round in 0..6_000 {
        let [begun, ended] = [round % 7, round % 5].map(|count| some_formula(&mut numbers, 1 + count).text());
        let (at, from) = (numbers.below(begun.len() as u64 + 1), numbers.below(ended.len() as u64 + 1));
        agrees(&format!("{}{}", &begun[..at as usize], &ended[from as usize..]));
    }
}
