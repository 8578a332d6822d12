//! Map checks: an overview, a detail made by splitting its states, and the map between.

use crate::bytes::chart::{self, arrow, framed, Arrow, Chart, NO_END};
use crate::cases::case::Case;
use crate::random::damage;
use crate::random::faults;
use crate::random::rng::Rng;
use crate::random::timelocks;

struct Pair {
    overview: Chart,
    detail: Chart,
    map: Vec<u16>,
}

/// A slot inside the given one, often sharing an end with it.
fn narrowed(rng: &mut Rng, over: &Arrow) -> (u16, u16) {
    if rng.percent(40) {
        return (over.fewest, over.most);
    }
    let last = if over.most == NO_END { 65_534 } else { over.most };
    let near = last.min(over.fewest.saturating_add(rng.below(6) as u16));
    let fewest = if rng.percent(30) { over.fewest } else { near };
    let shorter = last.min(fewest.saturating_add(rng.below(6) as u16));
    (fewest, rng.pick(&[over.most, last, shorter]))
}

/// Each overview state stands behind one to three detail states, in any order.
fn copies(rng: &mut Rng, overview: &Chart) -> Vec<u16> {
    let n = overview.states();
    let most = if n > 80 { 1 } else { rng.within(1, 3) };
    let mut map: Vec<u16> = Vec::new();
    for state in 0..n {
        for _ in 0..rng.within(1, most) {
            map.push(state as u16);
        }
    }
    rng.shuffle(&mut map);
    map
}

fn under(rng: &mut Rng, overview: &Chart, map: &[u16], start: usize) -> Arrow {
    let out: Vec<&Arrow> = overview.arrows.iter().filter(|a| a.start == map[start]).collect();
    let over = rng.pick(&out);
    let ends: Vec<usize> = (0..map.len()).filter(|&d| map[d] == over.end).collect();
    let (fewest, most) = narrowed(rng, over);
    arrow(start, rng.pick(&ends), fewest, most)
}

/// Its arrows give way to those of its overview state, none of them narrowed: so whatever the overview can go round, it can.
fn as_the_overview(rng: &mut Rng, pair: &mut Pair, state: usize) {
    pair.detail.arrows.retain(|a| a.start as usize != state);
    for over in pair.overview.arrows.iter().filter(|a| a.start == pair.map[state]) {
        let ends: Vec<usize> = (0..pair.map.len()).filter(|&d| pair.map[d] == over.end).collect();
        pair.detail.arrows.push(arrow(state, rng.pick(&ends), over.fewest, over.most));
    }
}

fn pair(rng: &mut Rng) -> Pair {
    let overview = chart::random(rng, false);
    let map = copies(rng, &overview);
    let labels = map.iter().map(|&state| overview.labels[state as usize]).collect();
    let mut arrows = Vec::new();
    for start in 0..map.len() {
        for _ in 0..rng.within(1, 2) {
            arrows.push(under(rng, &overview, &map, start));
        }
    }
    let mut pair = Pair { overview, detail: Chart { labels, arrows }, map };
    if rng.percent(90) {
        let locked = timelocks::of(&pair.detail);
        locked.into_iter().for_each(|state| as_the_overview(rng, &mut pair, state));
    }
    rng.shuffle(&mut pair.detail.arrows);
    pair
}

/// One detail arrow leaves the slot that covered it by a minute, or for good.
fn one_minute_out(rng: &mut Rng, pair: &mut Pair) {
    let at = rng.below(pair.detail.arrows.len());
    let a = &mut pair.detail.arrows[at];
    match rng.below(4) {
        0 => a.fewest = a.fewest.saturating_sub(1),
        1 => a.most = a.most.saturating_add(1),
        2 => a.most = NO_END,
        _ => a.end = rng.below(pair.map.len()) as u16,
    }
}

/// The other way round: an overview slot shrinks by a minute, or gets an end.
fn overview_shrinks(rng: &mut Rng, pair: &mut Pair) {
    let at = rng.below(pair.overview.arrows.len());
    let a = &mut pair.overview.arrows[at];
    match rng.below(3) {
        0 if a.fewest < a.most => a.fewest = (a.fewest + 1).min(65_534),
        1 if a.most == NO_END => a.most = 65_534,
        _ if a.fewest < a.most => a.most -= 1,
        _ => a.end = rng.below(pair.overview.labels.len()) as u16,
    }
}

/// An overview arrow is cut in two that cover it only together.
fn joined_only(rng: &mut Rng, pair: &mut Pair) {
    let at = rng.below(pair.overview.arrows.len());
    let whole = pair.overview.arrows[at];
    if whole.fewest >= whole.most || whole.fewest >= 65_533 {
        return;
    }
    let end = if whole.most == NO_END { whole.fewest + 1 } else { whole.most };
    let middle = rng.within(whole.fewest as usize, end as usize - 1) as u16;
    pair.overview.arrows[at].most = middle;
    pair.overview.arrows.push(Arrow { fewest: middle + 1, ..whole });
}

fn wrong_entry(rng: &mut Rng, pair: &mut Pair) {
    let n = pair.overview.states();
    // A state of the overview, but another: labels or arrows then disagree instead.
    let other = rng.below(n);
    let entry = rng.pick(&[n, n, n + 1, 256, 65_535, other]);
    let at = rng.below(pair.map.len());
    pair.map[at] = entry as u16;
}

fn wrong_label(rng: &mut Rng, pair: &mut Pair) {
    let bit = 1 << rng.below(16);
    if rng.percent(50) {
        let at = rng.below(pair.detail.labels.len());
        pair.detail.labels[at] ^= bit;
    } else {
        let at = rng.below(pair.overview.labels.len());
        pair.overview.labels[at] ^= bit;
    }
}

fn wrong_count(rng: &mut Rng, pair: &mut Pair) {
    if rng.percent(50) {
        pair.map.pop();
    } else {
        pair.map.push(rng.below(pair.overview.states()) as u16);
    }
}

fn fault(rng: &mut Rng, pair: &mut Pair) {
    match rng.below(16) {
        0..=2 => one_minute_out(rng, pair),
        3 => overview_shrinks(rng, pair),
        4 | 5 => joined_only(rng, pair),
        6 | 7 if !pair.map.is_empty() => wrong_entry(rng, pair),
        8 | 9 => wrong_label(rng, pair),
        10 => wrong_count(rng, pair),
        11 => faults::timelock(rng, &mut pair.detail),
        12 => faults::timelock(rng, &mut pair.overview),
        _ => {}
    }
}

fn map_bytes(map: &[u16]) -> Vec<u8> {
    let mut words = vec![map.len() as u16];
    words.extend(map);
    framed(&words)
}

/// Faults that may take away every state or arrow come last.
fn whole_faults(rng: &mut Rng, pair: &mut Pair) {
    if rng.percent(14) {
        faults::chart(rng, &mut pair.detail);
    }
    if rng.percent(20) {
        faults::chart(rng, &mut pair.overview);
    }
}

pub fn random(rng: &mut Rng) -> Case {
    let mut pair = pair(rng);
    let clean = rng.percent(25);
    if !clean {
        for _ in 0..rng.within(0, 2) {
            fault(rng, &mut pair);
        }
        whole_faults(rng, &mut pair);
    }
    let mut detail = pair.detail.bytes();
    let mut overview = pair.overview.bytes();
    let mut map = map_bytes(&pair.map);
    if !clean && rng.percent(10) {
        damage::bytes(rng, &mut detail, damage::CHART_COUNTS);
    }
    if !clean && rng.percent(15) {
        damage::bytes(rng, &mut overview, damage::CHART_COUNTS);
    }
    if !clean && rng.percent(20) {
        damage::bytes(rng, &mut map, damage::ONE_COUNT);
    }
    Case::Map { detail, overview, map }
}
