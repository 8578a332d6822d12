//! Random rules: trees of all seven operations, every bound, any order of the nodes.

use crate::bytes::chart::{Chart, NO_END};
use crate::bytes::rule::{node, plain, Node, A, AND, AT_LEAST, AT_MOST, E, EXACTLY, LABEL, MOST_EXACT, NOT, OR, TRUE};
use crate::random::rng::Rng;

/// Which untils a rule prefers, so that each of the four kinds of rule comes up.
#[derive(Clone, Copy, PartialEq, Eq)]
enum Taste {
    Any,
    AllRuns,
    SomeRun,
    NoUntil,
}

impl Taste {
    fn random(rng: &mut Rng) -> Taste {
        rng.pick(&[Taste::Any, Taste::Any, Taste::AllRuns, Taste::SomeRun, Taste::NoUntil])
    }

    fn under_not(self) -> Taste {
        match self {
            Taste::AllRuns => Taste::SomeRun,
            Taste::SomeRun => Taste::AllRuns,
            other => other,
        }
    }

    fn until(self, rng: &mut Rng) -> u8 {
        match self {
            Taste::AllRuns => A,
            Taste::SomeRun => E,
            _ => rng.pick(&[E, A]),
        }
    }
}

/// What a tree is grown for: the labels and minutes of a chart, and the largest bound.
struct Soil<'a> {
    chart: &'a Chart,
    cap: usize,
    great: bool,
}

impl Soil<'_> {
    fn label(&self, rng: &mut Rng) -> usize {
        let word = self.chart.labels[rng.below(self.chart.states())];
        if word == 0 || rng.percent(5) {
            return rng.below(16);
        }
        let set: Vec<usize> = (0..16).filter(|i| word >> i & 1 == 1).collect();
        rng.pick(&set)
    }

    /// A sum of slot ends along a short walk, where answers change, or one beside it.
    fn sum(&self, rng: &mut Rng) -> usize {
        let mut sum = 0;
        let mut state = rng.below(self.chart.states()) as u16;
        for _ in 0..rng.below(6) {
            let out: Vec<_> = self.chart.arrows.iter().filter(|x| x.start == state).collect();
            let step = rng.pick(&out);
            let ended = step.most != NO_END && rng.percent(50);
            sum += if ended { step.most as usize } else { step.fewest as usize };
            state = step.end;
        }
        (sum + rng.below(3)).saturating_sub(1)
    }

    /// A bound where 16 bits end.
    fn great_bound(&self, rng: &mut Rng) -> usize {
        let limit = rng.pick(&[32_767, 32_768, 65_534, 65_535, 65_535]);
        let sum = self.sum(rng);
        if rng.percent(30) || sum > 65_600 {
            limit
        } else {
            sum.min(65_535)
        }
    }

    fn bound(&self, rng: &mut Rng) -> usize {
        if self.great {
            return self.great_bound(rng);
        }
        let wanted = match rng.below(20) {
            0 => 0,
            1 => rng.below(65_536),
            2 => rng.pick(&[255, 256, 65_534, 65_535]),
            3..=5 => rng.below(8),
            _ => self.sum(rng),
        };
        // Past the cap the oracle would take too long.
        if wanted <= self.cap {
            wanted
        } else {
            rng.below(self.cap.min(30) + 1)
        }
    }
}

/// An until with a bound of any kind.
fn until(rng: &mut Rng, soil: &Soil, operation: u8, a: usize, b: usize) -> Node {
    let (kind, c) = (rng.pick(&[AT_MOST, AT_LEAST, EXACTLY]), soil.bound(rng));
    let greatest = MOST_EXACT.into();
    let c = if kind == EXACTLY && c > greatest { rng.pick(&[0, c % 256, greatest - 1, greatest]) } else { c };
    node(operation, kind, a, b, c)
}

fn leaf(rng: &mut Rng, soil: &Soil) -> Node {
    if rng.percent(25) {
        return plain(TRUE, 0, 0);
    }
    plain(LABEL, soil.label(rng), 0)
}

/// Appends a tree of `size` nodes, operands first; its top is the last one.
fn grow(rng: &mut Rng, soil: &Soil, size: usize, taste: Taste, out: &mut Vec<Node>) {
    if size <= 1 {
        out.push(leaf(rng, soil));
        return;
    }
    if size == 2 || rng.percent(15) {
        grow(rng, soil, size - 1, taste.under_not(), out);
        out.push(plain(NOT, out.len() - 1, 0));
        return;
    }
    let first = rng.within(1, size - 2);
    grow(rng, soil, first, taste, out);
    let a = out.len() - 1;
    grow(rng, soil, size - 1 - first, taste, out);
    let b = out.len() - 1;
    out.push(joined(rng, soil, taste, a, b));
}

fn joined(rng: &mut Rng, soil: &Soil, taste: Taste, a: usize, b: usize) -> Node {
    let (a, b) = if rng.percent(50) { (a, b) } else { (b, a) };
    if taste == Taste::NoUntil || rng.percent(30) {
        return plain(rng.pick(&[AND, OR, OR]), a, b);
    }
    let taste = if rng.percent(5) { Taste::Any } else { taste };
    let operation = taste.until(rng);
    until(rng, soil, operation, a, b)
}

/// Numbers the nodes anew in any order in which operands are lower than their node.
pub fn renumbered(rng: &mut Rng, nodes: &[Node]) -> Vec<Node> {
    let mut number = vec![usize::MAX; nodes.len()];
    let mut out = Vec::with_capacity(nodes.len());
    while out.len() < nodes.len() {
        let placed =
            |i: usize, operand: u16, at: usize| nodes[i].operands() <= at || number[operand as usize] != usize::MAX;
        let ready: Vec<usize> = (0..nodes.len())
            .filter(|&i| number[i] == usize::MAX)
            .filter(|&i| placed(i, nodes[i].a, 0) && placed(i, nodes[i].b, 1))
            .collect();
        let i = rng.pick(&ready);
        number[i] = out.len();
        out.push(moved(nodes[i], &number));
    }
    out
}

fn moved(mut x: Node, number: &[usize]) -> Node {
    if x.operands() > 0 {
        x.a = number[x.a as usize] as u16;
    }
    if x.operands() > 1 {
        x.b = number[x.b as usize] as u16;
    }
    x
}

fn size(rng: &mut Rng) -> usize {
    match rng.below(100) {
        0 => rng.pick(&[63, 64]),
        1..=4 => rng.within(10, 64),
        5..=14 => rng.within(1, 2),
        _ => rng.within(3, 9),
    }
}

/// The largest bound that keeps a rule of `nodes` nodes over the chart cheap.
fn cap(rng: &mut Rng, chart: &Chart, nodes: usize) -> usize {
    let work = if rng.percent(3) { 400_000 } else { 30_000 };
    (work / (chart.arrows.len() * nodes.div_ceil(3))).clamp(20, 65_535)
}

/// A rule that passes 10 to 16, made for the chart.
pub fn random(rng: &mut Rng, chart: &Chart) -> Vec<Node> {
    let size = size(rng);
    let soil = Soil { chart, cap: cap(rng, chart, size), great: false };
    let taste = Taste::random(rng);
    let mut nodes = Vec::new();
    grow(rng, &soil, size, taste, &mut nodes);
    if rng.percent(50) {
        nodes = renumbered(rng, &nodes);
    }
    nodes
}

/// One until with a bound up to the largest.
pub fn great(rng: &mut Rng, chart: &Chart) -> Vec<Node> {
    one_until(rng, &Soil { chart, cap: 65_535, great: true })
}

/// One until with a bound that the chart's minutes come to.
pub fn single(rng: &mut Rng, chart: &Chart) -> Vec<Node> {
    let cap = cap(rng, chart, 3);
    one_until(rng, &Soil { chart, cap, great: false })
}

/// Over true or a label and a label, each or its not.
fn one_until(rng: &mut Rng, soil: &Soil) -> Vec<Node> {
    let mut nodes = vec![leaf(rng, soil)];
    let first = operand(rng, &mut nodes);
    nodes.push(plain(LABEL, soil.label(rng), 0));
    let second = operand(rng, &mut nodes);
    let operation = rng.pick(&[E, A]);
    nodes.push(until(rng, soil, operation, first, second));
    nodes
}

/// The last node, at times under a not.
fn operand(rng: &mut Rng, nodes: &mut Vec<Node>) -> usize {
    if rng.percent(30) {
        nodes.push(plain(NOT, nodes.len() - 1, 0));
    }
    nodes.len() - 1
}
