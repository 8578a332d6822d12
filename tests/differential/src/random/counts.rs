//! Counts: bounds about 0 and 255, minutes that come to them, whatever is refused, and buffers about the shortest that are
//! enough.

use crate::bytes::chart::{self, Chart};
use crate::bytes::rule::{self, node, plain, Node, A, AT_LEAST, AT_MOST, E, EXACTLY, LABEL, NOT, TRUE};
use crate::cases::case::{Case, Lent};
use crate::random::exact_lines;
use crate::random::faults;
use crate::random::generate::{damaged_check, lent};
use crate::random::rng::Rng;
use crate::random::timed_lines;
use crate::random::trees;

/// The greatest bound that is counted to.
const GREATEST: u16 = 255;

fn is_until(node: &Node) -> bool {
    matches!(node.operation, E | A)
}

fn bound(rng: &mut Rng) -> u16 {
    match rng.below(10) {
        0 => 0,
        1 => GREATEST - 1,
        2 | 3 => GREATEST,
        _ => rng.below(21) as u16,
    }
}

/// Past the greatest: by little, by what eight bits would lose, or as far as can be.
fn past(rng: &mut Rng) -> u16 {
    let little = rng.below(21) as u16;
    rng.pick(&[256, 256, 256, 257, 256 + little, 512 + little, u16::MAX])
}

/// Now and then an until's bound is past the greatest, or two are. An exact one would be refused for its form.
fn bounds_past(rng: &mut Rng, rule: &mut [Node]) -> bool {
    let untils: Vec<usize> = (0..rule.len()).filter(|&t| is_until(&rule[t]) && rule[t].kind != EXACTLY).collect();
    if untils.is_empty() || !rng.percent(6) {
        return false;
    }
    for _ in 0..rng.within(1, 2) {
        rule[rng.pick(&untils)].c = past(rng);
    }
    true
}

/// About 256n numbers, at times about the 4n of check.
fn scratch(rng: &mut Rng, n: usize) -> Lent {
    let wanted = if rng.below(40) == 0 { 4 * n } else { 256 * n };
    lent(rng, wanted)
}

/// A bound past the greatest is told whatever is lent.
fn whole(rng: &mut Rng, chart: &Chart, mut rule: Vec<Node>) -> Case {
    let n = chart.states();
    let short = bounds_past(rng, &mut rule) && rng.percent(40);
    let (mut marks, mut scratch) = (lent(rng, n * rule.len()), scratch(rng, n));
    if short {
        marks.length = rng.below(marks.length);
        scratch.length = rng.below(scratch.length);
    }
    Case::Count { chart: chart.bytes(), rule: rule::bytes(&rule), marks, scratch }
}

/// Any chart and rule; bounds that are too great for a count are drawn anew.
fn small(rng: &mut Rng) -> Case {
    let timelocks = rng.percent(10);
    let chart = chart::random(rng, timelocks);
    let mut rule = if rng.percent(50) { trees::random(rng, &chart) } else { trees::single(rng, &chart) };
    let anew = rng.percent(20);
    for until in rule.iter_mut().filter(|node| is_until(node)) {
        if anew || until.c > GREATEST {
            until.c = bound(rng);
        }
    }
    whole(rng, &chart, rule)
}

/// Label 0, or true, until label 1 with a bound of one of the kinds; at times under a not, or within another such until.
fn until_rule(rng: &mut Rng, c: u16, kinds: &[u8]) -> Vec<Node> {
    let first = rng.pick(&[plain(LABEL, 0, 0), plain(LABEL, 0, 0), plain(LABEL, 0, 0), plain(TRUE, 0, 0)]);
    let until = |rng: &mut Rng, a: usize, b: usize, c: u16| node(rng.pick(&[E, A]), rng.pick(kinds), a, b, c.into());
    let mut rule = vec![first, plain(LABEL, 1, 0)];
    rule.push(until(rng, 0, 1, c));
    if rng.percent(15) {
        rule.push(plain(NOT, rule.len() - 1, 0));
    }
    if rng.percent(25) {
        let (inner, other) = (rule.len() - 1, rule.len());
        rule.push(plain(LABEL, rng.below(2), 0));
        let (a, b) = rng.pick(&[(inner, other), (other, inner)]);
        let c = bound(rng);
        rule.push(until(rng, a, b, c));
    }
    rule
}

/// A line of states and a rule for it.
pub fn lined(rng: &mut Rng) -> (Chart, Vec<Node>) {
    let c = bound(rng);
    let mut chart = timed_lines::random(rng, c.into());
    if rng.below(25) == 0 {
        faults::timelock(rng, &mut chart);
    }
    (chart, until_rule(rng, c, &[AT_MOST, AT_LEAST, EXACTLY]))
}

/// A line whose minutes are just the bound, at times a minute beside it, and a rule of exact bounds for it.
pub fn exactly_lined(rng: &mut Rng) -> (Chart, Vec<Node>) {
    let c = bound(rng);
    let mut chart = exact_lines::random(rng, c.into());
    if rng.below(25) == 0 {
        faults::timelock(rng, &mut chart);
    }
    let beside = if rng.percent(20) { rng.pick(&[c.saturating_sub(1), (c + 1).min(GREATEST)]) } else { c };
    (chart, until_rule(rng, beside, &[EXACTLY, EXACTLY, EXACTLY, AT_MOST, AT_LEAST]))
}

fn line(rng: &mut Rng) -> Case {
    let (chart, rule) = if rng.percent(25) { exactly_lined(rng) } else { lined(rng) };
    whole(rng, &chart, rule)
}

/// What check refuses, and now and then accepts; at times with a bound past the greatest.
fn damaged(rng: &mut Rng) -> Case {
    let Case::Check { chart, mut rule, marks, scratch: lent } = damaged_check(rng) else {
        panic!("a check was asked for");
    };
    let great = past(rng).to_be_bytes();
    let untils = rule.get_mut(7..).unwrap_or(&mut []).chunks_exact_mut(8).filter(|node| matches!(node[0], E | A));
    for node in untils.filter(|_| rng.percent(15)) {
        node[6..].copy_from_slice(&great);
    }
    let exact = rule::nodes(&rule).iter().any(|node| node.kind == EXACTLY);
    let scratch = if rng.percent(80) && !exact { Lent::new(lent.length * 64, lent.fill) } else { lent };
    Case::Count { chart, rule, marks, scratch }
}

pub fn random(rng: &mut Rng) -> Case {
    match rng.below(20) {
        0..=3 => damaged(rng),
        4..=9 => small(rng),
        _ => line(rng),
    }
}
