//! Row: parts in and out of the tables, and products that no longer fit.

use crate::cases::case::{Case, Table};
use crate::random::rng::Rng;

fn table(rng: &mut Rng) -> Vec<u8> {
    let length = match rng.below(10) {
        0 => 0,
        1 => rng.below(400),
        _ => rng.below(40),
    };
    (0..length).map(|_| rng.next() as u8).collect()
}

fn huge(rng: &mut Rng) -> usize {
    let top = 1usize << (usize::BITS - 1);
    let half = 1usize << (usize::BITS / 2);
    let near = rng.below(5);
    let base = rng.pick(&[usize::MAX, top, top - 1, half, half - 1, u32::MAX as usize]);
    if rng.percent(50) {
        base.saturating_sub(near)
    } else {
        base.saturating_add(near)
    }
}

/// A row that ends beside the end of the table.
pub fn beside_the_end(rng: &mut Rng, length: usize) -> (usize, usize) {
    let n = rng.within(1, 8);
    let rows = length / n;
    (n, (rows + rng.below(3)).saturating_sub(1))
}

/// t × n or (t + 1) × n passes the largest number by little, as if it began anew at 0.
fn wrapping(rng: &mut Rng, length: usize) -> (usize, usize) {
    let n = rng.pick(&[1, 2, 3, 4, 7, 8, 16, 256, length.max(1)]);
    let t = (usize::MAX / n).wrapping_add(rng.below(4)).wrapping_sub(1);
    if rng.percent(50) {
        (n, t)
    } else {
        (t, n)
    }
}

fn size_and_number(rng: &mut Rng, length: usize) -> (usize, usize) {
    match rng.below(10) {
        0 => (0, rng.pick(&[0, 1, usize::MAX])),
        1 => (huge(rng), huge(rng)),
        2 => (huge(rng), rng.below(3)),
        3 => (rng.within(1, 5), huge(rng)),
        4 => wrapping(rng, length),
        5 | 6 => beside_the_end(rng, length),
        7 => (length.saturating_sub(1) + rng.below(3), rng.below(2)),
        _ => (rng.within(1, 8), rng.below(6)),
    }
}

pub fn random(rng: &mut Rng) -> Case {
    let overview = table(rng);
    // Equal tables: then only the address tells which one a part lies in.
    let detail = if rng.percent(25) { overview.clone() } else { table(rng) };
    let choice = rng.pick(&[Table::Overview, Table::Detail]);
    let length = if choice == Table::Overview { overview.len() } else { detail.len() };
    let (n, t) = size_and_number(rng, length);
    Case::Row { overview, detail, choice, n, t }
}
