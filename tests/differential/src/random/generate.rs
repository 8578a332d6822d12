//! Random cases by number: case i depends on the seed and i alone.

use crate::bytes::chart::{self, Chart};
use crate::bytes::rule::{self, Node};
use crate::cases::case::{Case, Lent};
use crate::random::counts;
use crate::random::damage;
use crate::random::faults;
use crate::random::maps;
use crate::random::rng::Rng;
use crate::random::rows;
use crate::random::shows;
use crate::random::trees;

/// How many cases in 114 are checks.
const CHECKS: usize = 60;

/// A lent buffer that needs `exact` places: mostly enough of them, one too short at times.
pub fn lent(rng: &mut Rng, exact: usize) -> Lent {
    let length = match rng.below(40) {
        0 => exact.saturating_sub(1),
        1 => rng.below(exact),
        2 => 0,
        3..=12 => exact + 1,
        13..=18 => exact + rng.within(2, 40),
        19 => exact * 2 + 64,
        _ => exact,
    };
    Lent::new(length, rng.next())
}

/// About what check wants, at times about the 4n of rules without exact bounds.
fn scratch(rng: &mut Rng, rule: &[Node], n: usize) -> Lent {
    let wanted = if rng.below(40) == 0 { 4 * n } else { rule::check_scratch(rule, n) };
    lent(rng, wanted)
}

fn check_with(rng: &mut Rng, chart: &Chart, rule: &[Node]) -> Case {
    let marks = lent(rng, chart.states() * rule.len());
    let scratch = scratch(rng, rule, chart.states());
    Case::Check { chart: chart.bytes(), rule: rule::bytes(rule), marks, scratch }
}

fn whole_check(rng: &mut Rng) -> Case {
    let timelocks = rng.percent(25);
    let chart = chart::random(rng, timelocks);
    let mut rule = trees::random(rng, &chart);
    if rng.below(50) == 0 {
        faults::exact_bound_past(rng, &mut rule);
    }
    check_with(rng, &chart, &rule)
}

/// A line whose minutes count would go through.
fn lined_check(rng: &mut Rng) -> Case {
    let (chart, rule) = if rng.percent(60) { counts::exactly_lined(rng) } else { counts::lined(rng) };
    check_with(rng, &chart, &rule)
}

/// Minutes and bounds up to the largest, where a number of 16 bits would no longer do.
fn great_check(rng: &mut Rng) -> Case {
    let chart = chart::great(rng);
    let rule = trees::great(rng, &chart);
    let marks = Lent::new(chart.states() * rule.len(), rng.next());
    let scratch = Lent::new(rule::check_scratch(&rule, chart.states()), rng.next());
    Case::Check { chart: chart.bytes(), rule: rule::bytes(&rule), marks, scratch }
}

/// One to six faults, in the chart, in the rule or in both, so that the order of rows counts.
pub fn damaged_check(rng: &mut Rng) -> Case {
    let mut chart = chart::random(rng, false);
    let mut rule = trees::random(rng, &chart);
    let (n, k) = (chart.states(), rule.len());
    let (marks, scratch) = (lent(rng, k * n), scratch(rng, &rule, n));
    let (on_chart, on_rule) = rng.pick(&[(true, false), (false, true), (true, true)]);
    let inner = rng.percent(60);
    for _ in 0..rng.within(1, 2) {
        if inner && on_chart {
            faults::chart(rng, &mut chart);
        }
        if inner && on_rule {
            faults::rule(rng, &mut rule);
        }
    }
    let (mut chart, mut rule) = (chart.bytes(), rule::bytes(&rule));
    if on_chart && (!inner || rng.percent(15)) {
        damage::bytes(rng, &mut chart, damage::CHART_COUNTS);
    }
    if on_rule && (!inner || rng.percent(15)) {
        damage::bytes(rng, &mut rule, damage::ONE_COUNT);
    }
    Case::Check { chart, rule, marks, scratch }
}

fn kind(rng: &mut Rng) -> Case {
    let chart = chart::random(rng, true);
    let mut nodes = trees::random(rng, &chart);
    let damaged = rng.percent(40);
    if damaged && rng.percent(70) {
        faults::rule(rng, &mut nodes);
    }
    let mut rule = rule::bytes(&nodes);
    if damaged && rng.percent(50) {
        damage::bytes(rng, &mut rule, damage::ONE_COUNT);
    }
    Case::Kind { rule }
}

/// One of the checks, by a share below `CHECKS`.
fn check_of(rng: &mut Rng, share: usize) -> Case {
    match share {
        0..=1 => great_check(rng),
        2..=8 => lined_check(rng),
        9..=41 => whole_check(rng),
        _ => damaged_check(rng),
    }
}

/// A check, as often of each sort as among the cases of all calls.
pub fn check(rng: &mut Rng) -> Case {
    let share = rng.below(CHECKS);
    check_of(rng, share)
}

pub fn random(seed: u64, number: u64) -> Case {
    let mut rng = Rng::of_case(seed, number);
    match rng.below(114) {
        share @ 0..CHECKS => check_of(&mut rng, share),
        60..=69 => kind(&mut rng),
        70..=91 => maps::random(&mut rng),
        92..=99 => rows::random(&mut rng),
        100..=106 => shows::random(&mut rng),
        _ => counts::random(&mut rng),
    }
}
