//! Families of charts. Even labels serve as the first operand of an until, odd ones as the second.

use crate::bytes::{self, Arrow, NO_END};
use crate::handover;
use crate::random::Random;
use crate::unordered;

pub const NAMES: [&str; 16] = [
    "random",
    "waiting",
    "chain",
    "chain-loop",
    "chain-shuffled",
    "zigzag",
    "zigzag-loop",
    "odd-even",
    "grid",
    "regular",
    "dense",
    "hidden",
    "layers",
    "skips",
    "retry",
    "handover",
];

/// The names of the family's charts: several where seeds make them, else one.
pub fn charts(family: &str) -> Vec<String> {
    if unordered::NAMES.contains(&family) {
        unordered::charts(family)
    } else {
        vec![family.to_string()]
    }
}

/// The chart of that name with n states and m arrows, m at least n; no such chart gives none.
pub fn chart(name: &str, n: usize, m: usize) -> Option<Vec<u8>> {
    let mut random = Random::new(1);
    let arrows = match name {
        "random" => random_arrows(n, m, &mut random),
        "waiting" => waiting(n, m, &mut random),
        "chain" => chain(n, m, n - 1),
        "chain-loop" => chain(n, m, 0),
        "chain-shuffled" => shuffled(chain(n, m, 0), &mut random),
        "zigzag" => zigzag(n, chain(n, m, n - 1)),
        "zigzag-loop" => zigzag(n, chain(n, m, 0)),
        "odd-even" => odd_even(chain(n, m, 0)),
        "grid" => grid(n, m, &mut random),
        "regular" => regular(n, m, &mut random),
        "handover" => shuffled(handover::arrows(n, m), &mut random),
        // As many states as give every ordered pair about one arrow.
        "dense" => return Some(dense(m, &mut random)),
        _ => return unordered::chart(name, n, m),
    };
    let one_way = name.starts_with("chain") || name.starts_with("zigzag") || ["odd-even", "handover"].contains(&name);
    let labels = if one_way { end_labels(n) } else { spread_labels(n, &mut random) };
    Some(bytes::chart(&labels, &arrows))
}

/// A slot within 0 to 20 minutes, one in 32 without end. Only an arrow to a higher state may take no time, so every loop
/// takes some.
pub fn slot(start: usize, end: usize, random: &mut Random) -> Arrow {
    let least = usize::from(end <= start);
    let fewest = least + random.below(21 - least);
    let most = fewest + random.below(21 - fewest);
    let most = if random.chance(1, 32) { NO_END } else { most as u16 };
    Arrow { start: start as u16, end: end as u16, fewest: fewest as u16, most }
}

/// One arrow from each state, the others from anywhere, all to anywhere, in no order.
pub fn random_arrows(n: usize, m: usize, random: &mut Random) -> Vec<Arrow> {
    let mut arrows = Vec::with_capacity(m);
    for i in 0..m {
        let start = if i < n { i } else { random.below(n) };
        let end = random.below(n);
        arrows.push(slot(start, end, random));
    }
    random.shuffle(&mut arrows);
    arrows
}

/// At each state an arrow to itself, to wait a minute, and the others random; every slot has an end, so that only loops
/// go on without end.
fn waiting(n: usize, m: usize, random: &mut Random) -> Vec<Arrow> {
    let mut arrows = random_arrows(n, m, random);
    for arrow in arrows.iter_mut().filter(|arrow| arrow.most == NO_END) {
        arrow.most = arrow.fewest;
    }
    for (s, arrow) in arrows.iter_mut().take(n).enumerate() {
        *arrow = Arrow { start: s as u16, end: s as u16, fewest: 1, most: 1 };
    }
    random.shuffle(&mut arrows);
    arrows
}

/// Arrow s to s + 1 is listed before s + 1 to s + 2, copies side by side: the worst order for rounds that only go
/// forward, where each settles one more state, and an easy one for sweeps that go on and back. The last state leads to
/// `back`.
fn chain(n: usize, m: usize, back: usize) -> Vec<Arrow> {
    let mut arrows = Vec::with_capacity(m);
    for s in 0..n {
        let copies = (s + 1) * m / n - s * m / n;
        let end = if s + 1 < n { s + 1 } else { back };
        for copy in 0..copies {
            let fewest = 1 + (s + copy) as u16 % 5;
            arrows.push(Arrow { start: s as u16, end: end as u16, fewest, most: fewest + 10 });
        }
    }
    arrows
}

/// Even starts ascending, then odd ones descending, so that a sweep in either direction settles about one more state of
/// the chain only.
fn zigzag(n: usize, mut arrows: Vec<Arrow>) -> Vec<Arrow> {
    arrows.sort_by_key(|arrow| {
        let s = usize::from(arrow.start);
        if s % 2 == 0 {
            s / 2
        } else {
            n - 1 - s / 2
        }
    });
    arrows
}

/// A minute from each state to the next, the arrows of odd states listed first, so that a sweep in either direction carries
/// a number two states on only.
fn odd_even(mut arrows: Vec<Arrow>) -> Vec<Arrow> {
    for arrow in &mut arrows {
        (arrow.fewest, arrow.most) = (1, 1);
    }
    arrows.sort_by_key(|arrow| arrow.start % 2 == 0);
    arrows
}

/// The arrows in no order.
fn shuffled(mut arrows: Vec<Arrow>, random: &mut Random) -> Vec<Arrow> {
    random.shuffle(&mut arrows);
    arrows
}

/// Arrows to the right and down, round from the last state to the first ones; the rest of m leads at most two rows on.
fn grid(n: usize, m: usize, random: &mut Random) -> Vec<Arrow> {
    let width = (n as f64).sqrt() as usize;
    let mut arrows = Vec::with_capacity(m);
    for s in 0..n {
        arrows.push(slot(s, (s + 1) % n, random));
    }
    for s in 0..n.min(m - n) {
        arrows.push(slot(s, (s + width) % n, random));
    }
    while arrows.len() < m {
        let s = random.below(n);
        let end = (s + 1 + random.below(2 * width)) % n;
        arrows.push(slot(s, end, random));
    }
    arrows
}

/// Every state to the next m / n ones, round from the last to the first.
fn regular(n: usize, m: usize, random: &mut Random) -> Vec<Arrow> {
    (0..m).map(|i| slot(i % n, (i % n + 1 + i / n) % n, random)).collect()
}

/// Arrows between every two states, self loops included, and a few twice.
fn dense(m: usize, random: &mut Random) -> Vec<u8> {
    let n = (m as f64).sqrt() as usize;
    let arrows: Vec<Arrow> = (0..m).map(|i| slot(i / n % n, i % n, random)).collect();
    bytes::chart(&spread_labels(n, random), &arrows)
}

/// Even labels everywhere, odd ones at the last state, so that every until runs the length of the chain.
fn end_labels(n: usize) -> Vec<u16> {
    (0..n).map(|s| if s + 1 == n { 0xFFFF } else { 0x5555 }).collect()
}

/// How many states in 64 have each label; label 1 is at the last state alone.
const DENSITY: [usize; 16] = [64, 0, 60, 1, 56, 4, 48, 8, 32, 16, 16, 32, 8, 2, 62, 48];

pub fn spread_labels(n: usize, random: &mut Random) -> Vec<u16> {
    let mut labels = vec![0u16; n];
    for label in labels.iter_mut() {
        for (bit, &density) in DENSITY.iter().enumerate() {
            *label |= u16::from(random.chance(density, 64)) << bit;
        }
    }
    labels[n - 1] |= 2;
    labels
}
