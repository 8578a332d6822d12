//! Random texts for desk_rule, by number: text i depends on the seed and i alone.

use crate::cases::case::Case;
use crate::programs::files::Stored;
use crate::programs::typed::Typed;
use crate::random::formulas;
use crate::random::long_texts;
use crate::random::rng::Rng;
use crate::random::{edits, written};

/// What is typed: a formula, one with an edit, or a text about the limits.
fn text(rng: &mut Rng) -> Vec<u8> {
    let size = rng.within(1, 12);
    let formula = crate::bytes::text::text(&formulas::random(rng, size));
    match rng.below(8) {
        0..=2 => formula,
        3..=5 => edits::random(rng, &formula),
        _ => long_texts::random(rng),
    }
}

/// Mostly one newline at the end.
fn ended(rng: &mut Rng, mut text: Vec<u8>) -> Vec<u8> {
    let end: &[u8] = match rng.below(10) {
        0 => b"",
        1 => b"\n\n",
        2 => b"\r\n",
        _ => b"\n",
    };
    text.extend(end);
    text
}

/// No file, an old one, or the rule of another case.
fn before(rng: &mut Rng, seed: u64, number: u64) -> Stored {
    match rng.below(3) {
        0 => Stored::Missing,
        1 => Stored::Bytes((0..rng.below(700)).map(|_| rng.next() as u8).collect()),
        _ => match written::random(&mut Rng::of_case(seed, number)) {
            Case::Write { rule, .. } => Stored::Bytes(rule),
            _ => panic!("a write was asked for"),
        },
    }
}

pub fn random(seed: u64, number: u64) -> Typed {
    let rng = &mut Rng::of_case(seed, number);
    let before = before(rng, seed, number);
    let text = text(rng);
    let text = ended(rng, text);
    let pieces = if rng.below(20) == 0 { split(rng, text) } else { vec![text] };
    // At times only what lies there is told.
    let pieces = (!rng.percent(25)).then_some(pieces);
    Typed { name: format!("text {number} of seed {seed}"), before, pieces, written: None }
}

fn split(rng: &mut Rng, mut text: Vec<u8>) -> Vec<Vec<u8>> {
    let rest = text.split_off(rng.below(text.len() + 1));
    vec![text, rest]
}
