//! Rules typed as text and written back, by number: case i depends on the seed and i alone. A row has rules that are
//! written, or small formulas, each read as it is and with one edit after the other, or one large formula with an edit
//! of every kind at every position.

use crate::bytes::text::text;
use crate::cases::case::Case;
use crate::random::edits;
use crate::random::formulas;
use crate::random::generate::lent;
use crate::random::long_texts;
use crate::random::rng::Rng;
use crate::random::written;

/// The cases of a row, and of a small formula in it: enough for three edits at each of 682 and of 84 positions.
const ROW: u64 = 2_048;
const PART: u64 = 256;

enum Row {
    Written,
    Small,
    Large(usize),
}

fn row_of(rng: &mut Rng) -> Row {
    match rng.below(10) {
        0 | 1 => Row::Written,
        2..=6 => Row::Small,
        7 => Row::Large(rng.within(10, 64)),
        8 => Row::Large(rng.within(60, 70)),
        _ => Row::Large(rng.within(65, 110)),
    }
}

fn read(rng: &mut Rng, text: Vec<u8>, nodes: usize) -> Case {
    Case::Read { text, output: lent(rng, 7 + 8 * nodes) }
}

/// The formula, then its edits; the last of so many cases is a text about the limits.
fn read_edited(formula_rng: &mut Rng, rng: &mut Rng, size: usize, place: u64, cases: u64) -> Case {
    if place + 1 == cases {
        let text = long_texts::random(rng);
        return read(rng, text, 64);
    }
    let formula = text(&formulas::random(formula_rng, size));
    let text = match place {
        0 => formula,
        _ => edits::numbered(rng, &formula, place as usize - 1, cases as usize - 2),
    };
    read(rng, text, size)
}

pub fn random(seed: u64, number: u64) -> Case {
    let (row_rng, rng) = (&mut Rng::of_case(seed, number / ROW), &mut Rng::of_case(!seed, number));
    match row_of(row_rng) {
        Row::Written => written::random(rng),
        Row::Small => {
            let part_rng = &mut Rng::of_case(seed ^ ROW, number / PART);
            let size = part_rng.within(1, 9);
            read_edited(part_rng, rng, size, number % PART, PART)
        }
        Row::Large(size) => read_edited(row_rng, rng, size, number % ROW, ROW),
    }
}

#[cfg(test)]
mod tests {
    use super::{random, PART, ROW};
    use crate::cases::case::Case;

    #[test]
    fn seed_and_number_give_the_same_case_again() {
        assert_eq!(random(3, 5), random(3, 5));
        assert_ne!(random(3, 5), random(3, 6));
        assert_ne!(random(3, 5), random(4, 5));
    }

    /// In how many parts of so many the first text is a formula, and the others are one byte from it.
    #[test]
    fn a_part_is_one_formula_and_its_edits() {
        let mut formulas = 0;
        for row in 0..40 {
            let text = |place| match random(1, row * ROW + place) {
                Case::Read { text, .. } => Some(text),
                _ => None,
            };
            let Some(formula) = text(0) else { continue };
            formulas += 1;
            assert_ne!(oracle::read_rule(&formula, &mut [0; 519]).outcome.number, 64);
            for place in 1..PART - 1 {
                let edited = text(place).expect("a text");
                let (longer, shorter) =
                    if edited.len() > formula.len() { (&edited, &formula) } else { (&formula, &edited) };
                let equal = longer.iter().zip(shorter).take_while(|(x, y)| x == y).count();
                let rest = usize::from(longer.len() == shorter.len());
                assert_eq!(longer.get(equal + 1..).unwrap_or(&[]), shorter.get(equal + rest..).unwrap_or(&[]));
            }
        }
        assert!((20..40).contains(&formulas), "{formulas}");
    }
}
