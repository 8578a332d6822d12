//! The largest charts under large bounds, and under the greatest that is counted to, exact ones among them. No marks are
//! written for them: they are accepted, and both programs agree.

use crate::bytes::chart::{arrow, Arrow, Chart, NO_END};
use crate::bytes::rule::{node, plain, Node, A, AT_LEAST, AT_MOST, E, EXACTLY, LABEL, OR};
use crate::named::expected::{add, exact, exact_count, Expected, Named};
use crate::random::rng::Rng;
use crate::random::timelocks::let_time_pass;

const STATES: usize = 256;
const HALF: usize = STATES / 2;
const ARROWS: usize = 2_048;

/// The states in 100 that have each label, label 1 being at the last state alone. Dense or rare so that the until of
/// each two labels holds at some states and fails at others.
const SHARES: [usize; 12] = [50, 0, 10, 50, 97, 80, 90, 98, 97, 5, 97, 98];

const FOUR: [(u8, u8); 4] = [(E, AT_MOST), (E, AT_LEAST), (A, AT_MOST), (A, AT_LEAST)];
const EXACT: [(u8, u8); 2] = [(E, EXACTLY), (A, EXACTLY)];

/// The untils, each over two labels of its own, joined by or.
fn joined(untils: &[(u8, u8)], c: usize) -> Vec<Node> {
    let mut nodes = Vec::new();
    for (i, &(operation, kind)) in untils.iter().enumerate() {
        let (before, first) = (nodes.len().wrapping_sub(1), nodes.len());
        nodes.extend([plain(LABEL, 2 * i, 0), plain(LABEL, 2 * i + 1, 0)]);
        nodes.push(node(operation, kind, first, first + 1, c));
        if i > 0 {
            nodes.push(plain(OR, before, first + 2));
        }
    }
    nodes
}

fn six_untils(c: usize) -> Vec<Node> {
    joined(&[&FOUR[..], &EXACT].concat(), c)
}

/// Slots within the given minutes; at times without end, if that is asked for. The upper half is not left again.
fn random(minutes: usize, no_end: bool) -> Chart {
    let mut rng = Rng::new(minutes as u64);
    let mut arrows = Vec::with_capacity(ARROWS);
    for j in 0..ARROWS {
        let start = if j < STATES { j } else { rng.below(STATES) };
        let fewest = rng.below(minutes + 1);
        let most = if no_end && rng.percent(3) { NO_END } else { rng.within(fewest, minutes) as u16 };
        let lowest = if start < HALF { 0 } else { HALF };
        arrows.push(arrow(start, rng.within(lowest, STATES - 1), fewest as u16, most));
    }
    let mut labels: Vec<u16> = (0..STATES).map(|_| word(&mut rng)).collect();
    labels[STATES - 1] |= 1 << 1;
    // A at least and exactly: every run of the upper half keeps its first label, and for exactly the second one too.
    labels[HALF..].iter_mut().for_each(|word| *word |= 1 << 6 | 3 << 10);
    let mut chart = Chart { labels, arrows };
    let_time_pass(&mut rng, &mut chart);
    rng.shuffle(&mut chart.arrows);
    chart
}

fn word(rng: &mut Rng) -> u16 {
    let bits = SHARES.iter().enumerate().map(|(label, &share)| u16::from(rng.percent(share)) << label);
    bits.fold(0, |word, bit| word | bit)
}

/// At each state an arrow to itself that takes a minute, before the random ones: numbers that grow by 1 alone.
fn waiting(minutes: usize) -> Chart {
    let mut chart = random(minutes, false);
    for (state, a) in chart.arrows.iter_mut().take(STATES).enumerate() {
        *a = arrow(state, state, 1, 1);
    }
    chart
}

/// Each state to the next one, eight arrows side by side, the last state to `back`. The whole way takes longer than the
/// bound, its last part doesn't. Only one state in eight has long slots, since those take the oracle longest.
fn chain(c: usize, back: usize) -> Chart {
    let long = c as u16 / 25;
    let mut arrows = Vec::with_capacity(ARROWS);
    for j in 0..ARROWS {
        let (start, copy) = (j * STATES / ARROWS, (j % (ARROWS / STATES)) as u16);
        let end = if start + 1 < STATES { start + 1 } else { back };
        let (least, more) = if start % 8 == 0 { (long, long / 4) } else { (1 + start as u16 % 3, 5) };
        arrows.push(arrow(start, end, least + copy, least + copy + more));
    }
    // First operands hold before the last state, second ones there; both there if it leads round, to go on from it.
    let mut labels = vec![0x5555; STATES];
    labels[STATES - 1] = if back == 0 { 0xFFFF } else { 0xAAAA };
    Chart { labels, arrows }
}

/// The chain listed so that a sweep over the arrows in either direction gets one state further only: even starts
/// ascending, then odd ones descending.
fn zigzag(c: usize, back: usize) -> Chart {
    let key = |a: &Arrow| match a.start as usize {
        s if s % 2 == 0 => s / 2,
        s => STATES - 1 - s / 2,
    };
    let mut chart = chain(c, back);
    chart.arrows.sort_by_key(key);
    chart
}

/// The chain with rings of eight states that are gone round in no time; only from the last of a ring it goes on.
fn rings(c: usize) -> Chart {
    let (long, mut chart) = (c as u16 / 25, chain(c, STATES - 1));
    for (j, a) in chart.arrows.iter_mut().enumerate() {
        let (back, last) = (j % 2 == 0, a.start % 8 == 7);
        (a.fewest, a.most) = if last && !back { (long, long + long / 4) } else { (0, 0) };
        if back {
            a.end = a.start / 8 * 8;
        }
    }
    chart
}

fn test(list: &mut Vec<Named>, name: &str, chart: &Chart, c: usize) {
    let name = format!("large: {name}, bound {c}");
    add(list, &name, exact(chart, &joined(&FOUR, c)), Expected::Outcome(0, 0, 0));
}

/// Of count, under the greatest bound; and of check, where exact bounds are counted to as well.
fn counts(list: &mut Vec<Named>) {
    let c = 255;
    let mut test = |name: &str, chart: Chart| {
        let accepted = || Expected::Outcome(0, 0, 0);
        let case = exact_count(&chart, &six_untils(c));
        add(list, &format!("large: {name}, count, bound {c}"), case, accepted());
        let case = exact(&chart, &six_untils(c));
        add(list, &format!("large: {name}, exact ones too, bound {c}"), case, accepted());
    };
    for minutes in [5, 150] {
        test(&format!("random up to {minutes} minutes or no end"), random(minutes, true));
        test(&format!("waiting, up to {minutes} minutes"), waiting(minutes));
    }
    test("chain", chain(c, STATES - 1));
    test("zigzag", zigzag(c, STATES - 1));
    test("zigzag-loop", zigzag(c, 0));
    test("rings", rings(c));
    // No step takes more than a minute, so that every minute comes along every run.
    test("random up to 1 minute", random(1, false));
}

pub fn all(list: &mut Vec<Named>) {
    counts(list);
    // Long slots come to the bound in a few arrows, short ones by loops alone. Long ones under the largest bound would
    // take the oracle too long, but for the chains.
    for (minutes, c) in [(20, 2_500), (1_600, 2_500), (20, 65_535)] {
        test(list, &format!("random up to {minutes} minutes"), &random(minutes, false), c);
        test(list, &format!("random up to {minutes} minutes or no end"), &random(minutes, true), c);
        test(list, &format!("waiting, up to {minutes} minutes"), &waiting(minutes), c);
    }
    test(list, "rings", &rings(2_500), 2_500);
    for c in [2_500, 65_535] {
        test(list, "chain", &chain(c, STATES - 1), c);
        test(list, "zigzag", &zigzag(c, STATES - 1), c);
        test(list, "zigzag-loop", &zigzag(c, 0), c);
    }
}
