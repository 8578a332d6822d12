//! Faults inside well-framed charts and rules, so that the later rows are met.

use crate::bytes::chart::{arrow, Arrow, Chart};
use crate::bytes::rule::{plain, Node, A, E, EXACTLY, LABEL, NOT, TRUE};
use crate::random::rng::Rng;

fn any_arrow<'a>(rng: &mut Rng, chart: &'a mut Chart) -> Option<&'a mut Arrow> {
    let count = chart.arrows.len();
    chart.arrows.get_mut(rng.below(count))
}

fn wrong_state(rng: &mut Rng, chart: &mut Chart) {
    let n = chart.states() as u16;
    let state = rng.pick(&[n, n, n.wrapping_add(1), 256, 65_535]);
    let at_end = rng.percent(50);
    if let Some(a) = any_arrow(rng, chart) {
        if at_end {
            a.end = state;
        } else {
            a.start = state;
        }
    }
}

fn wrong_slot(rng: &mut Rng, chart: &mut Chart) {
    let slots = [(5, 4), (1, 0), (65_535, 65_535), (65_535, 0), (65_534, 65_533), (256, 255)];
    let (fewest, most) = rng.pick(&slots);
    if let Some(a) = any_arrow(rng, chart) {
        a.fewest = fewest;
        a.most = most;
    }
}

/// All arrows of one state start elsewhere, or a new last state has none.
fn state_without_arrow(rng: &mut Rng, chart: &mut Chart) {
    let n = chart.states();
    if n < 2 || rng.percent(30) {
        chart.labels.push(rng.word());
        return;
    }
    let bare = rng.below(n);
    let other = (bare + rng.within(1, n - 1)) % n;
    for a in chart.arrows.iter_mut().filter(|a| a.start as usize == bare) {
        a.start = other as u16;
    }
}

/// One, two or three states that arrows of 0 to 0 alone leave, and only for one another.
pub fn timelock(rng: &mut Rng, chart: &mut Chart) {
    let mut locked: Vec<usize> = (0..chart.states()).collect();
    rng.shuffle(&mut locked);
    locked.truncate(rng.within(1, 3));
    for a in chart.arrows.iter_mut().filter(|a| locked.contains(&(a.start as usize))) {
        (a.end, a.fewest, a.most) = (rng.pick(&locked) as u16, 0, 0);
    }
}

fn wrong_counts(rng: &mut Rng, chart: &mut Chart) {
    match rng.below(8) {
        0..=2 => chart.labels.clear(),
        3..=5 => chart.arrows.clear(),
        6 => chart.labels.resize(257, 1),
        _ => {
            let fill = chart.arrows.first().copied().unwrap_or(arrow(0, 0, 1, 1));
            chart.arrows.resize(2_049, fill);
        }
    }
}

pub fn chart(rng: &mut Rng, chart: &mut Chart) {
    match rng.below(9) {
        0 | 1 => wrong_state(rng, chart),
        2 | 3 => wrong_slot(rng, chart),
        4 | 5 => state_without_arrow(rng, chart),
        6 | 7 => timelock(rng, chart),
        _ => wrong_counts(rng, chart),
    }
}

fn wrong_form(rng: &mut Rng, x: &mut Node) {
    let odd = rng.pick(&[1, 16, 256, 65_535]);
    match rng.below(7) {
        0 => x.operation = rng.pick(&[7, 8, 128, 255]),
        1 => x.operation = rng.below(7) as u8,
        2 if x.operation >= E => x.kind = rng.pick(&[0, 4, 255]),
        2 => x.kind = rng.pick(&[1, 2, 3, 255]),
        3 => *x = plain(LABEL, rng.pick(&[15, 16, 17, 65_535]), 0),
        4 => x.b = odd,
        5 if x.operation >= E => (x.kind, x.c) = (EXACTLY, past_exact(rng)),
        _ => x.c = odd,
    }
}

/// Past the greatest c of an exact bound: by little, by what eight bits would lose, or as far as can be.
fn past_exact(rng: &mut Rng) -> u16 {
    rng.pick(&[256, 256, 256, 257, 511, 512, 65_535])
}

/// One of the untils, if there is one, has such a bound.
pub fn exact_bound_past(rng: &mut Rng, nodes: &mut [Node]) {
    let mut untils: Vec<&mut Node> = nodes.iter_mut().filter(|node| matches!(node.operation, E | A)).collect();
    let at = rng.below(untils.len());
    if let Some(until) = untils.get_mut(at) {
        (until.kind, until.c) = (EXACTLY, past_exact(rng));
    }
}

fn wrong_operand(rng: &mut Rng, nodes: &mut [Node]) {
    let at = rng.below(nodes.len());
    let number = at as u16;
    let last = nodes.len() as u16 - 1;
    let lower = rng.below(at) as u16;
    let operand = rng.pick(&[number, number + 1, last, 65_535, lower, lower, lower]);
    let x = &mut nodes[at];
    match x.operands() {
        2 if rng.percent(50) => x.b = operand,
        0 => *x = plain(NOT, operand as usize, 0),
        _ => x.a = operand,
    }
}

fn wrong_use(rng: &mut Rng, nodes: &mut Vec<Node>) {
    let last = nodes.len() - 1;
    match rng.below(3) {
        0 => nodes.push(plain(TRUE, 0, 0)),
        1 => nodes.push(plain(rng.pick(&[3, 4]), last, last)),
        _ => nodes.push(Node { operation: A, kind: 1, a: last as u16, b: rng.below(last + 1) as u16, c: 3 }),
    }
}

fn wrong_length(rng: &mut Rng, nodes: &mut Vec<Node>) {
    if rng.percent(50) {
        nodes.clear();
        return;
    }
    while nodes.len() < 65 {
        nodes.push(plain(NOT, nodes.len() - 1, 0));
    }
}

pub fn rule(rng: &mut Rng, nodes: &mut Vec<Node>) {
    if nodes.is_empty() {
        return;
    }
    match rng.below(10) {
        0..=3 => {
            let at = rng.below(nodes.len());
            wrong_form(rng, &mut nodes[at]);
        }
        4..=6 => wrong_operand(rng, nodes),
        7 | 8 => wrong_use(rng, nodes),
        _ => wrong_length(rng, nodes),
    }
}
