//! Families in no order: state numbers and arrows are both shuffled, so that no order of either helps a check.

use crate::bytes::{self, Arrow};
use crate::random::Random;

pub const NAMES: [&str; 4] = ["hidden", "layers", "skips", "retry"];

/// Several charts a family, so that none is fitted to one shuffle: `hidden`, `hidden-2`, `hidden-3`.
const SEEDS: [u64; 3] = [7, 8, 9];

/// The states of a layer.
const LAYER: usize = 8;

/// The names of the family's charts, one a seed.
pub fn charts(family: &str) -> Vec<String> {
    let later = (2..=SEEDS.len()).map(|number| format!("{family}-{number}"));
    std::iter::once(family.to_string()).chain(later).collect()
}

/// The chart of that name with n states and m arrows, m at least n; no such chart gives none.
pub fn chart(name: &str, n: usize, m: usize) -> Option<Vec<u8>> {
    let family = NAMES.into_iter().find(|family| name.starts_with(family))?;
    let seed = charts(family).iter().position(|chart| chart == name)?;
    let mut random = Random::new(SEEDS[seed]);
    let numbers = shuffled_numbers(n, &mut random);
    let mut arrows = Vec::with_capacity(m);
    for i in 0..m {
        let place = i % n;
        let next = next_place(family, n, place, i < n, &mut random);
        arrows.push(arrow(numbers[place], numbers[next], &mut random));
    }
    random.shuffle(&mut arrows);
    let mut labels = vec![0x5555; n];
    labels[usize::from(numbers[n - 1])] = 0xFFFF;
    Some(bytes::chart(&labels, &arrows))
}

/// The state number at each place of an order that the chart doesn't show.
pub fn shuffled_numbers(n: usize, random: &mut Random) -> Vec<u16> {
    let mut numbers: Vec<u16> = (0..n as u16).collect();
    random.shuffle(&mut numbers);
    numbers
}

/// Where an arrow leads, in places of that order; the last place is the end of every family.
fn next_place(family: &str, n: usize, place: usize, first: bool, random: &mut Random) -> usize {
    let next = match family {
        "layers" => (place / LAYER + 1) * LAYER + random.below(LAYER),
        "skips" => place + 1 + random.below(3),
        "retry" if !first => random.below(place + 1),
        _ => place + 1,
    };
    next.min(n - 1)
}

fn arrow(start: u16, end: u16, random: &mut Random) -> Arrow {
    let fewest = 1 + random.below(5) as u16;
    Arrow { start, end, fewest, most: fewest + 10 }
}
