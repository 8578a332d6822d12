//! Runs of about 256 steps: a line of states into a ring, whose fewest steps are known.

use crate::bytes::chart::{arrow, Arrow, Chart};
use crate::bytes::rule::{node, plain, Node, A, AT_LEAST, AT_MOST, E, EXACTLY, LABEL, TRUE};
use crate::random::rng::Rng;

pub struct Long {
    pub chart: Chart,
    pub rule: Vec<Node>,
    /// Where the run begins, and the fewest steps that it takes.
    pub start: usize,
    pub steps: usize,
}

/// State i leads to state i + 1, the last one back into the line; every arrow takes up to so many minutes, on some lines
/// from 0 up.
fn lasso(rng: &mut Rng, n: usize, minutes: u16) -> Chart {
    let (back, least) = (rng.below(n), rng.below(2));
    let mut arrows: Vec<Arrow> = Vec::new();
    for start in 0..n {
        let end = if start + 1 < n { start + 1 } else { back };
        arrows.push(arrow(start, end, rng.within(least, minutes as usize) as u16, minutes));
        // One beside it that is no quicker and no slower, so that several runs are right.
        if rng.percent(10) {
            arrows.push(arrow(start, end, minutes, minutes));
        }
        // Round it steps are taken for nothing.
        if rng.percent(4) {
            arrows.push(arrow(start, start, 0, 0));
        }
    }
    // Label 0 everywhere, label 1 at the last state alone.
    let mut labels = vec![1; n];
    labels[n - 1] |= 2;
    Chart { labels, arrows }
}

/// Other numbers for the states, another order for the arrows; answers the number of state 0.
fn mixed(rng: &mut Rng, chart: &mut Chart) -> usize {
    let mut number: Vec<usize> = (0..chart.states()).collect();
    rng.shuffle(&mut number);
    chart.renumber(&number);
    rng.shuffle(&mut chart.arrows);
    number[0]
}

fn until(operation: u8, kind: u8, second: Node, c: usize) -> Vec<Node> {
    vec![plain(LABEL, 0, 0), second, node(operation, kind, 0, 1, c)]
}

/// Round and round, until so many steps come to the bound.
fn round(rng: &mut Rng) -> Long {
    let steps = rng.pick(&[250, 254, 255, 256, 256, 256, 257, 257, 258, 300]);
    let minutes = rng.within(1, 3);
    let n = rng.within(1, 6);
    let mut chart = lasso(rng, n, minutes as u16);
    let less = rng.below(minutes);
    let rule = match rng.below(2) {
        0 => until(E, AT_LEAST, plain(TRUE, 0, 0), steps * minutes - less),
        // Label 15 is nowhere: the run is over once its moment is above the bound.
        _ => until(A, AT_MOST, plain(LABEL, 15, 0), steps * minutes - less - 1),
    };
    Long { start: mixed(rng, &mut chart), chart, rule, steps }
}

/// Along the whole line to its last state: the longest way that "at most" can ask for.
fn line(rng: &mut Rng) -> Long {
    let n = rng.pick(&[40, 100, 255, 256, 256]);
    let mut chart = lasso(rng, n, 1);
    let more = rng.below(2);
    let rule = until(E, AT_MOST, plain(LABEL, 1, 0), n - 1 + more);
    Long { start: mixed(rng, &mut chart), chart, rule, steps: n - 1 }
}

/// Round a ring on which one arrow takes a minute and the others none, until just so many minutes have passed.
fn slow_round(rng: &mut Rng) -> Long {
    let n = rng.within(2, 6);
    let mut arrows: Vec<Arrow> = (0..n).map(|start| arrow(start, (start + 1) % n, 0, 0)).collect();
    let timed = rng.below(n);
    (arrows[timed].fewest, arrows[timed].most) = (1, 1);
    // From state 0 the minute of round c ends where the timed arrow of that round does.
    let steps = |c: usize| (c - 1) * n + timed + 1;
    let c = 256 / n + rng.below(3);
    let mut chart = Chart { labels: vec![1; n], arrows };
    let rule = until(E, EXACTLY, plain(TRUE, 0, 0), c);
    Long { start: mixed(rng, &mut chart), chart, rule, steps: steps(c) }
}

pub fn random(rng: &mut Rng) -> Long {
    match rng.below(20) {
        0 => line(rng),
        1..=6 => slow_round(rng),
        _ => round(rng),
    }
}
