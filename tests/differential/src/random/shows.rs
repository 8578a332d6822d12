//! Shows: runs of a few steps and of about 256, minutes past 16 bits, whatever check refuses, and buffers about the
//! shortest that are enough.

use crate::bytes::chart::{self, Chart};
use crate::bytes::rule::{self, node, plain, Node, A, AT_LEAST, AT_MOST, E, EXACTLY, LABEL};
use crate::cases::case::{Case, Lent};
use crate::random::asked;
use crate::random::dense_runs;
use crate::random::exact_lines;
use crate::random::generate::{damaged_check, lent};
use crate::random::long_runs;
use crate::random::rng::Rng;
use crate::random::telling;
use crate::random::timed_lines;
use crate::random::trees;

/// Bytes that are enough for every run.
const MAX_RUN: usize = 257 * 6;

/// About 257n numbers, at times about what check wants.
fn scratch(rng: &mut Rng, rule: &[Node], n: usize) -> Lent {
    let (least, enough) = (rule::check_scratch(rule, n), 257 * n);
    let length = match rng.below(40) {
        0 => least.saturating_sub(1),
        1 => least,
        2 => rng.within(least, enough),
        3 | 4 => enough.saturating_sub(1),
        _ => return lent(rng, enough),
    };
    Lent::new(length, rng.next())
}

/// About what a run of so many steps takes, or what is always enough.
fn output(rng: &mut Rng, steps: usize) -> Lent {
    let fits = 6 * (steps + 1);
    let length = match rng.below(24) {
        0 => 0,
        1 => rng.below(fits),
        2..=5 => fits - 1,
        6 | 7 => fits + 1,
        8 => rng.below(300),
        9..=16 => fits,
        17 => MAX_RUN - 1,
        18 => MAX_RUN + rng.within(1, 100),
        _ => MAX_RUN,
    };
    Lent::new(length, rng.next())
}

fn whole(rng: &mut Rng, chart: &Chart, rule: &[Node], steps: usize) -> Case {
    let n = chart.states();
    let (marks, scratch) = (lent(rng, n * rule.len()), scratch(rng, rule, n));
    let (chart, rule) = (chart.bytes(), rule::bytes(rule));
    let [node, state] = asked::random(rng, &chart, &rule);
    Case::Show { chart, rule, marks, scratch, node, state, output: output(rng, steps) }
}

fn small(rng: &mut Rng) -> Case {
    let timelocks = rng.percent(5);
    let chart = chart::random(rng, timelocks);
    if rng.percent(30) {
        let (rule, steps) = (trees::random(rng, &chart), few_steps(rng));
        return whole(rng, &chart, &rule, steps);
    }
    let rule = telling::random(rng, &chart);
    open(rng, &chart, &rule)
}

fn dense(rng: &mut Rng) -> Case {
    let (chart, rule) = dense_runs::random(rng);
    open(rng, &chart, &rule)
}

/// One until over the labels of a line.
fn lined(rng: &mut Rng) -> Case {
    let c = rng.below(20);
    let chart = timed_lines::random(rng, c);
    let asked = [(E, AT_MOST), (E, AT_LEAST), (E, EXACTLY), (E, EXACTLY), (A, AT_MOST), (A, AT_MOST), (A, EXACTLY)];
    let (operation, kind) = rng.pick(&asked);
    let rule = [plain(LABEL, 0, 0), plain(LABEL, 1, 0), node(operation, kind, 0, 1, c)];
    open(rng, &chart, &rule)
}

/// The same where every run takes the same minutes.
fn exactly_lined(rng: &mut Rng) -> Case {
    let c = rng.pick(&[0, 3, 20, 255]);
    let chart = exact_lines::random(rng, c);
    let rule = [plain(LABEL, 0, 0), plain(LABEL, 1, 0), node(rng.pick(&[E, E, E, A]), EXACTLY, 0, 1, c)];
    open(rng, &chart, &rule)
}

/// Mostly from a state where the until isn't met at once.
fn open(rng: &mut Rng, chart: &Chart, rule: &[Node]) -> Case {
    let steps = few_steps(rng);
    let start = telling::open_state(rng, chart, rule).filter(|_| rng.percent(80));
    starting(whole(rng, chart, rule, steps), start)
}

/// As many as the runs of small charts have.
fn few_steps(rng: &mut Rng) -> usize {
    rng.pick(&[0, 1, 1, 2, 2, 3, 4])
}

/// The same from another state, where one is given.
fn starting(mut case: Case, start: Option<usize>) -> Case {
    if let (Case::Show { state, .. }, Some(start)) = (&mut case, start) {
        *state = start;
    }
    case
}

fn great(rng: &mut Rng) -> Case {
    let chart = chart::great(rng);
    let mut rule = trees::great(rng, &chart);
    for until in rule.iter_mut().filter(|node| node.operation == A) {
        telling::mostly_at_most(rng, until);
        // Past the largest bound in one step: a duration that 16 bits don't hold.
        if rng.percent(50) {
            until.c = 65_535;
        }
    }
    let steps = rng.below(4);
    whole(rng, &chart, &rule, steps)
}

/// From the state where the long run begins, mostly.
fn long(rng: &mut Rng) -> Case {
    let long = long_runs::random(rng);
    let case = whole(rng, &long.chart, &long.rule, long.steps);
    starting(case, Some(long.start).filter(|_| rng.percent(85)))
}

/// What check refuses, and now and then accepts, with scratch and output of any length.
fn damaged(rng: &mut Rng) -> Case {
    let Case::Check { chart, rule, marks, scratch: lent } = damaged_check(rng) else {
        panic!("a check was asked for");
    };
    let [node, state] = asked::random(rng, &chart, &rule);
    let exact = rule::nodes(&rule).iter().any(|node| node.kind == EXACTLY);
    let scratch = match rng.percent(50) {
        true if exact => Lent::new(lent.length / 256 * 257, lent.fill),
        true => Lent::new(lent.length / 4 * 257, lent.fill),
        false => lent,
    };
    let steps = rng.below(3);
    Case::Show { chart, rule, marks, scratch, node, state, output: output(rng, steps) }
}

pub fn random(rng: &mut Rng) -> Case {
    match rng.below(20) {
        0 => great(rng),
        1 | 2 => long(rng),
        3..=5 => damaged(rng),
        6..=10 => dense(rng),
        11 => lined(rng),
        12 | 13 => exactly_lined(rng),
        _ => small(rng),
    }
}
