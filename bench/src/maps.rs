//! Inputs of the map check: detail chart, overview chart and map, with 2,048 arrows in each chart.

use crate::bytes::{self, Arrow};
use crate::families::{self, random_arrows, spread_labels};
use crate::random::Random;

pub const NAMES: [&str; 7] = ["identity", "shuffled", "last-covers", "reversed", "apart", "quotient", "handover"];

pub struct MapInput {
    pub detail: Vec<u8>,
    pub overview: Vec<u8>,
    pub map: Vec<u8>,
}

const STATES: usize = 256;
const ARROWS: usize = 2048;

/// The input of that name; no such input gives none.
pub fn input(name: &str) -> Option<MapInput> {
    match name {
        "identity" => Some(itself(|_| ())),
        "shuffled" => Some(itself(|arrows| Random::new(4).shuffle(arrows))),
        "last-covers" => Some(last_covers()),
        "reversed" => Some(one_cover_each(|i| ARROWS - 1 - i)),
        "apart" => Some(one_cover_each(apart)),
        "quotient" => Some(quotient()),
        "handover" => handover(),
        _ => None,
    }
}

/// A random chart against itself, the overview's arrows put in an order of their own.
fn itself(reorder: impl Fn(&mut [Arrow])) -> MapInput {
    let mut random = Random::new(2);
    let mut arrows = random_arrows(STATES, ARROWS, &mut random);
    let labels = spread_labels(STATES, &mut random);
    let detail = bytes::chart(&labels, &arrows);
    reorder(&mut arrows);
    let entries: Vec<u16> = (0..STATES as u16).collect();
    MapInput { detail, overview: bytes::chart(&labels, &arrows), map: bytes::map(&entries) }
}

/// The chart whose loops can be taken in no time against itself, so that row 19 is not passed at once.
fn handover() -> Option<MapInput> {
    let chart = families::chart("handover", STATES, ARROWS)?;
    let entries: Vec<u16> = (0..STATES as u16).collect();
    Some(MapInput { detail: chart.clone(), overview: chart, map: bytes::map(&entries) })
}

/// All detail states stand for the one overview state, and each detail arrow is covered by one overview arrow alone, at
/// that place: the ends tell nothing, only the slot does.
fn one_cover_each(place: impl Fn(usize) -> usize) -> MapInput {
    let slot = |i: usize, start, end| Arrow { start, end, fewest: 1 + i as u16, most: 1 + i as u16 };
    let state = |i: usize| (i % STATES) as u16;
    let detail: Vec<Arrow> = (0..ARROWS).map(|i| slot(i, state(i), state(i + 1))).collect();
    let mut overview = vec![slot(0, 0, 0); ARROWS];
    for i in 0..ARROWS {
        overview[place(i)] = slot(i, 0, 0);
    }
    MapInput {
        detail: bytes::chart(&[0; STATES], &detail),
        overview: bytes::chart(&[0], &overview),
        map: bytes::map(&[0; STATES]),
    }
}

/// A quarter of the arrows at least from the arrow's own place, and from the cover found before, in either direction.
fn apart(i: usize) -> usize {
    let step = if i % 2 == 0 { ARROWS / 2 } else { ARROWS / 4 };
    (i + step) % ARROWS
}

/// Even states stand for overview state 0, odd ones for 1. Only the last overview arrow covers what leads from 0 to 1,
/// and only the one before it what leads back.
fn last_covers() -> MapInput {
    let (n, m) = (STATES as u16, ARROWS as u16);
    let arrow = |start, end, most| Arrow { start, end, fewest: 1, most };
    let there = |i| arrow(i * 2 % n, (i * 2 + 1) % n, 20);
    let mut detail: Vec<Arrow> = (0..m - n / 2).map(there).collect();
    detail.extend((0..n / 2).map(|i| arrow(i * 2 + 1, i * 2, 20)));
    let mut overview: Vec<Arrow> = (0..m - 2).map(|i| arrow(0, 1, 1 + i % 19)).collect();
    overview.push(arrow(1, 0, 20));
    overview.push(arrow(0, 1, 20));
    let entries: Vec<u16> = (0..n).map(|s| s % 2).collect();
    MapInput {
        detail: bytes::chart(&[0; STATES], &detail),
        overview: bytes::chart(&[0; 2], &overview),
        map: bytes::map(&entries),
    }
}

/// Four detail states stand for one overview state; each detail arrow has its overview arrow, a minute wider.
fn quotient() -> MapInput {
    let mut random = Random::new(3);
    let mut detail = random_arrows(STATES, ARROWS, &mut random);
    for arrow in detail.iter_mut() {
        // A forward arrow may become a self loop of the overview: every loop takes time there too.
        arrow.fewest = arrow.fewest.max(1);
        arrow.most = arrow.most.max(arrow.fewest);
    }
    let mut overview: Vec<Arrow> = detail.iter().map(folded).collect();
    random.shuffle(&mut overview);
    let labels = spread_labels(STATES / 4, &mut random);
    let detail_labels: Vec<u16> = (0..STATES).map(|s| labels[s / 4]).collect();
    let entries: Vec<u16> = (0..STATES as u16).map(|s| s / 4).collect();
    MapInput {
        detail: bytes::chart(&detail_labels, &detail),
        overview: bytes::chart(&labels, &overview),
        map: bytes::map(&entries),
    }
}

fn folded(arrow: &Arrow) -> Arrow {
    Arrow { start: arrow.start / 4, end: arrow.end / 4, most: arrow.most.saturating_add(1), ..*arrow }
}
