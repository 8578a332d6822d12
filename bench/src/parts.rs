//! Charts of eight parts, with no arrow from one to another and with labels of another density in each: so whatever the
//! bound, an until holds in some part, fails in another, and does both in a third.

use crate::bytes::{self, Arrow, NO_END};
use crate::families;
use crate::random::Random;
use crate::unordered::shuffled_numbers;

const STATES: usize = 256;
const ARROWS: usize = 2048;
const PART: usize = 32;
/// Arrows lead so many places on at most, round the part, so that some ways are long.
const REACH: usize = 3;

/// Of 64 states how many have a label, in each part: an even one, and odd ones by turns.
const DENSITY: [[usize; 3]; STATES / PART] =
    [[64, 64, 64], [64, 62, 64], [64, 64, 0], [64, 2, 64], [60, 2, 4], [64, 8, 4], [48, 32, 32], [56, 56, 60]];

/// The chart of that name; no such chart gives none.
pub fn chart(name: &str) -> Option<Vec<u8>> {
    let slot = match name {
        "parts" => families::slot,
        "parts-short" => short,
        "parts-wide" => wide,
        "parts-minute" => minute,
        _ => return None,
    };
    let mut random = Random::new(11);
    let numbers = shuffled_numbers(STATES, &mut random);
    let mut arrows = Vec::with_capacity(ARROWS);
    for i in 0..ARROWS {
        let place = i % STATES;
        let next = place / PART * PART + (place + 1 + random.below(REACH)) % PART;
        arrows.push(slot(numbers[place].into(), numbers[next].into(), &mut random));
    }
    random.shuffle(&mut arrows);
    let mut labels = vec![0; STATES];
    for place in 0..STATES {
        labels[usize::from(numbers[place])] = drawn_labels(DENSITY[place / PART], &mut random);
    }
    Some(bytes::chart(&labels, &arrows))
}

fn drawn_labels([even, odd, next_odd]: [usize; 3], random: &mut Random) -> u16 {
    let density = [even, odd, even, next_odd];
    (0..16).map(|bit| u16::from(random.chance(density[bit % 4], 64)) << bit).sum()
}

/// 1 to 10 minutes.
fn short(start: usize, end: usize, random: &mut Random) -> Arrow {
    let fewest = 1 + random.below(10);
    let most = fewest + random.below(11 - fewest);
    Arrow { start: start as u16, end: end as u16, fewest: fewest as u16, most: most as u16 }
}

/// From 1 to 20 minutes on up to 200 more, one in eight without end.
fn wide(start: usize, end: usize, random: &mut Random) -> Arrow {
    let fewest = 1 + random.below(20) as u16;
    let most = fewest + random.below(201) as u16;
    let most = if random.chance(1, 8) { NO_END } else { most };
    Arrow { start: start as u16, end: end as u16, fewest, most }
}

/// A minute or none, three in five just a minute: no run leaves a minute out.
fn minute(start: usize, end: usize, random: &mut Random) -> Arrow {
    let (fewest, most) = [(1, 1), (1, 1), (1, 1), (0, 1), (0, 0)][random.below(5)];
    Arrow { start: start as u16, end: end as u16, fewest, most }
}
