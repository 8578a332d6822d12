//! Asks: which row of which table.

use crate::programs::files::Stored;
use crate::random::rng::Rng;
use crate::random::rows::beside_the_end;

pub fn bytes(choice: u8, n: u16, t: u16) -> Vec<u8> {
    let ([n_high, n_low], [t_high, t_low]) = (n.to_be_bytes(), t.to_be_bytes());
    vec![choice, n_high, n_low, t_high, t_low]
}

/// The row, or one of the rows, that ends where the table ends; n = 0 for an empty table.
fn at_the_end(rng: &mut Rng, length: usize) -> (usize, usize) {
    let divisors: Vec<usize> = (1..=length).filter(|n| length % n == 0).collect();
    if divisors.is_empty() {
        return (0, 0);
    }
    let n = rng.pick(&divisors);
    (n, length / n - 1)
}

fn big(rng: &mut Rng) -> usize {
    rng.pick(&[255, 256, 257, 32_767, 32_768, 65_535])
}

fn size_and_number(rng: &mut Rng, length: usize) -> (usize, usize) {
    match rng.below(12) {
        0 => (0, rng.pick(&[0, 1, 65_535])),
        1 => (big(rng), big(rng)),
        2 => (big(rng), rng.below(2)),
        3 => (rng.within(1, 3), big(rng)),
        4 => at_the_end(rng, length),
        5 => (length + 1, 0),
        6 | 7 => beside_the_end(rng, length),
        _ => (rng.within(1, 8), rng.below(4)),
    }
}

/// An ask about tables of these lengths, overview and detail; at times a byte is missing, or all are.
pub fn random(rng: &mut Rng, lengths: [usize; 2]) -> Stored {
    let (choice, length) = match rng.below(2) {
        0 => (0, lengths[0]),
        _ => (rng.pick(&[1, 1, 2, 128, 255]), lengths[1]),
    };
    let (n, t) = size_and_number(rng, length);
    let mut ask = bytes(choice, n as u16, t as u16);
    match rng.below(20) {
        0 => return Stored::Missing,
        1 | 2 => ask.truncate(rng.below(5)),
        3 => ask.extend([0xFF; 3]),
        _ => {}
    }
    Stored::Bytes(ask)
}
