//! A chart and a rule drawn by a seed, of varied size and shape, so that no family is the only measure.

use crate::bytes::{self, Arrow, Node, NO_END};
use crate::nodes::{all_runs, always, and, label, not, or, some_run};
use crate::random::Random;
use crate::unordered::shuffled_numbers;

/// What every arrow of a drawn chart is drawn by.
struct Style {
    shape: Shape,
    /// Fewest minutes are below this, most at most as many again.
    minutes: usize,
    /// Of 32 arrows, how many have no end, take no minute where they may, and lead back to their own start.
    endless: usize,
    instant: usize,
    own: usize,
}

/// How arrows lead from place to place of an order that the chart needn't show.
#[derive(Clone, Copy)]
enum Shape {
    Anywhere,
    /// At most so many places on, the last place to the first or to itself.
    Onward(usize, Last),
    /// To any place of the next layer of that many.
    Layers(usize),
    /// The first arrow of a place to the next, the others back.
    Back,
}

#[derive(Clone, Copy)]
enum Last {
    First,
    Itself,
}

/// The chart of that seed.
pub fn chart(seed: u64) -> Vec<u8> {
    let mut random = Random::new(2 * seed + 1);
    let (n, m) = sizes(&mut random);
    let style = style(&mut random);
    let mut arrows: Vec<Arrow> = (0..m).map(|i| drawn_arrow(&style, n, i, &mut random)).collect();
    if random.chance(3, 4) {
        let numbers = shuffled_numbers(n, &mut random);
        for arrow in &mut arrows {
            arrow.start = numbers[usize::from(arrow.start)];
            arrow.end = numbers[usize::from(arrow.end)];
        }
    }
    match random.below(8) {
        0 => {}
        1 => arrows.reverse(),
        2 => arrows.sort_by_key(|arrow| arrow.start),
        _ => random.shuffle(&mut arrows),
    }
    bytes::chart(&labels(n, &mut random), &arrows)
}

/// The chart of that seed with most slots from 0 up, and some, or most, of them 0 to 0: many of its loops can be taken in no
/// time, and from some states there may be no others.
pub fn hurried(seed: u64) -> Vec<u8> {
    let mut random = Random::new(3 * seed + 5);
    let instant = [1, 8, 16, 28][random.below(4)];
    let mut chart = chart(seed);
    let first = 9 + 2 * usize::from(u16::from_be_bytes([chart[5], chart[6]]));
    for arrow in chart[first..].chunks_exact_mut(8) {
        if random.chance(3, 4) {
            arrow[4..6].fill(0);
        }
        if random.chance(instant, 32) {
            arrow[4..8].fill(0);
        }
    }
    chart
}

/// Half of the charts are small; one in eight has arrows up to the most that a chart may have.
fn sizes(random: &mut Random) -> (usize, usize) {
    let most = if random.chance(1, 2) { 24 } else { 256 };
    let n = 2 + random.below(most - 1);
    let arrows = if random.chance(1, 8) { 2048 } else { (8 * n).min(2048) };
    (n, n + random.below(arrows - n + 1))
}

fn style(random: &mut Random) -> Style {
    let shape = match random.below(6) {
        0 => Shape::Anywhere,
        1 => Shape::Onward(1 + random.below(3), Last::Itself),
        2 => Shape::Onward(1 + random.below(3), Last::First),
        3 => Shape::Onward(1 + random.below(32), Last::Itself),
        4 => Shape::Layers(1 + random.below(16)),
        _ => Shape::Back,
    };
    let mut part = || [0, 1, 8][random.below(3)];
    let (endless, instant, own) = (part(), part(), part());
    Style { shape, minutes: [1, 5, 20, 500, 30_000][random.below(5)], endless, instant, own }
}

/// Arrow i of the chart, between places. Each of the first n leaves another place, so that every state is left.
fn drawn_arrow(style: &Style, n: usize, i: usize, random: &mut Random) -> Arrow {
    let start = if i < n { i } else { random.below(n) };
    let own = i >= n && random.chance(style.own, 32);
    let end = if own { start } else { end_of(style.shape, n, start, i < n, random) };
    // Only on to a later place, so that every loop takes time; those of `hurried` need not.
    let instant = end > start && random.chance(style.instant, 32);
    let fewest = if instant { 0 } else { 1 + random.below(style.minutes) };
    let most = if random.chance(style.endless, 32) { NO_END } else { (fewest + random.below(style.minutes)) as u16 };
    Arrow { start: start as u16, end: end as u16, fewest: fewest as u16, most }
}

fn end_of(shape: Shape, n: usize, start: usize, first: bool, random: &mut Random) -> usize {
    match shape {
        Shape::Anywhere => random.below(n),
        Shape::Onward(reach, Last::First) => (start + 1 + random.below(reach)) % n,
        Shape::Onward(reach, Last::Itself) => (start + 1 + random.below(reach)).min(n - 1),
        Shape::Layers(width) => ((start / width + 1) * width + random.below(width)).min(n - 1),
        Shape::Back if first => (start + 1).min(n - 1),
        Shape::Back => random.below(start + 1),
    }
}

/// Each label has its own share of the states; none and all are among them.
fn labels(n: usize, random: &mut Random) -> Vec<u16> {
    let shares: Vec<usize> = (0..16).map(|_| [0, 1, 4, 16, 32, 48, 60, 63, 64][random.below(9)]).collect();
    let mut labels = vec![0u16; n];
    for label in labels.iter_mut() {
        for (bit, &share) in shares.iter().enumerate() {
            *label |= u16::from(random.chance(share, 64)) << bit;
        }
    }
    labels
}

/// The rule of that seed.
pub fn rule(seed: u64) -> Vec<u8> {
    let mut random = Random::new(2 * seed + 2);
    let size = if random.chance(1, 2) { 3 + random.below(8) } else { 1 + random.below(64) };
    let mut nodes = Vec::with_capacity(size);
    grow(size, &mut nodes, &mut random);
    bytes::rule(&nodes)
}

/// Adds a tree of that many nodes, operands before their node, and answers its root.
fn grow(size: usize, nodes: &mut Vec<Node>, random: &mut Random) -> u16 {
    let node = match size {
        1 if random.chance(1, 8) => always(),
        1 => label(random.below(16) as u16),
        _ if size == 2 || random.chance(1, 8) => not(grow(size - 1, nodes, random)),
        _ => {
            let left = 1 + random.below(size - 2);
            let a = grow(left, nodes, random);
            let b = grow(size - 1 - left, nodes, random);
            joined(a, b, random)
        }
    };
    nodes.push(node);
    nodes.len() as u16 - 1
}

/// Three in four are untils, which take the time.
fn joined(a: u16, b: u16, random: &mut Random) -> Node {
    let kind = 1 + random.below(2) as u8;
    let bound = [0, 1, 5, 14, 60, 500, 5_000, u16::MAX][random.below(8)];
    match random.below(8) {
        0 => and(a, b),
        1 => or(a, b),
        2..=4 => some_run(a, b, kind, bound),
        _ => all_runs(a, b, kind, bound),
    }
}
