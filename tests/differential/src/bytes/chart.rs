//! Charts: their bytes and small random ones.

use crate::random::rng::Rng;
use crate::random::timelocks::let_time_pass;

pub const NO_END: u16 = 65_535;

#[derive(Clone, Copy, Debug)]
pub struct Arrow {
    pub start: u16,
    pub end: u16,
    pub fewest: u16,
    pub most: u16,
}

#[derive(Clone, Debug)]
pub struct Chart {
    pub labels: Vec<u16>,
    pub arrows: Vec<Arrow>,
}

pub fn arrow(start: usize, end: usize, fewest: u16, most: u16) -> Arrow {
    Arrow { start: start as u16, end: end as u16, fewest, most }
}

/// Version 1 and the length of the whole before the given words.
pub fn framed(words: &[u16]) -> Vec<u8> {
    let mut bytes = vec![1, 0, 0, 0, 0];
    bytes.extend(words.iter().flat_map(|word| word.to_be_bytes()));
    let length = bytes.len() as u32;
    bytes[1..5].copy_from_slice(&length.to_be_bytes());
    bytes
}

impl Chart {
    pub fn states(&self) -> usize {
        self.labels.len()
    }

    pub fn bytes(&self) -> Vec<u8> {
        let mut words = vec![self.labels.len() as u16, self.arrows.len() as u16];
        words.extend(&self.labels);
        for a in &self.arrows {
            words.extend([a.start, a.end, a.fewest, a.most]);
        }
        framed(&words)
    }

    /// Other numbers for the states: number[s] for s.
    pub fn renumber(&mut self, number: &[usize]) {
        let labels = self.labels.clone();
        for (state, word) in labels.into_iter().enumerate() {
            self.labels[number[state]] = word;
        }
        for a in self.arrows.iter_mut() {
            (a.start, a.end) = (number[a.start as usize] as u16, number[a.end as usize] as u16);
        }
    }
}

/// What the slots of one chart look like: how many in 100 begin at 0, are 0 to 0, and have no end, and how long they are.
pub struct Slots {
    zero: usize,
    instant: usize,
    no_end: usize,
    large: bool,
}

impl Slots {
    pub fn random(rng: &mut Rng) -> Slots {
        let zero = rng.pick(&[0, 10, 30, 60, 95]);
        let instant = rng.pick(&[0, 0, 10, 30, 60, 90]);
        let no_end = rng.pick(&[0, 5, 15, 30]);
        Slots { zero, instant, no_end, large: rng.percent(8) }
    }

    fn fewest(&self, rng: &mut Rng) -> u16 {
        if rng.percent(self.zero) {
            return 0;
        }
        if self.large {
            let middle = rng.within(1, 40_000) as u16;
            return rng.pick(&[1, 3, 255, 256, 65_533, 65_534, middle, middle]);
        }
        rng.within(1, 6) as u16
    }

    pub fn slot(&self, rng: &mut Rng) -> (u16, u16) {
        if rng.percent(self.instant) {
            return (0, 0);
        }
        let fewest = self.fewest(rng);
        if rng.percent(self.no_end) {
            return (fewest, NO_END);
        }
        let wide = if self.large && rng.percent(50) { 30_000 } else { 6 };
        let more = if rng.percent(35) { 0 } else { rng.below(wide + 1) };
        (fewest, (fewest as usize + more).min(65_534) as u16)
    }
}

/// Mostly a handful of states; the limits of the paper now and then.
fn size(rng: &mut Rng) -> (usize, usize) {
    if rng.below(1_500) == 0 {
        let n = rng.pick(&[200, 255, 256]);
        return (n, rng.pick(&[n, 1_000, 2_047, 2_048]));
    }
    let n = if rng.percent(6) { rng.within(8, 20) } else { rng.within(1, 7) };
    let more = if rng.percent(25) { rng.below(2) } else { rng.below(n + 3) };
    (n, n + more)
}

/// One state has a label of its own, the others share another: a long way to the one.
fn one_apart(rng: &mut Rng, n: usize) -> Vec<u16> {
    let shared = 1 << rng.below(16);
    let mut words = vec![shared; n];
    words[rng.below(n)] = 1 << rng.below(16);
    words
}

fn labels(rng: &mut Rng, n: usize) -> Vec<u16> {
    let used = match rng.below(10) {
        0 => u16::MAX,
        1 => 1 << rng.below(16),
        2 | 3 => return one_apart(rng, n),
        _ => 7 << rng.below(14),
    };
    let sparse = rng.percent(30);
    let mut word = || rng.word() & used & if sparse { rng.word() } else { u16::MAX };
    (0..n).map(|_| word()).collect()
}

/// Where the first n arrows end: anywhere, or each in the next state of a ring of all.
fn first_ends(rng: &mut Rng, n: usize) -> Vec<usize> {
    if rng.percent(75) {
        return (0..n).map(|_| rng.below(n)).collect();
    }
    let mut ring: Vec<usize> = (0..n).collect();
    if rng.percent(60) {
        rng.shuffle(&mut ring);
    }
    let mut ends = vec![0; n];
    for i in 0..n {
        ends[ring[i]] = ring[(i + 1) % n];
    }
    ends
}

/// Every state gets an arrow; the others start anywhere, some equal to one there already.
fn arrows(rng: &mut Rng, n: usize, m: usize, slots: &Slots) -> Vec<Arrow> {
    let mut made: Vec<Arrow> = Vec::with_capacity(m);
    let ends = first_ends(rng, n);
    for j in 0..m {
        if j >= n && rng.percent(8) {
            let equal = made[rng.below(made.len())];
            made.push(equal);
            continue;
        }
        let start = if j < n { j } else { rng.below(n) };
        let end = match ends.get(j) {
            Some(&end) => end,
            None if rng.percent(15) => start,
            None => rng.below(n),
        };
        let (fewest, most) = slots.slot(rng);
        made.push(arrow(start, end, fewest, most));
    }
    made
}

/// A chart that passes 1 to 9 and, unless `timelocks` leaves it as it is drawn, 19.
pub fn random(rng: &mut Rng, timelocks: bool) -> Chart {
    let (n, m) = size(rng);
    let slots = Slots::random(rng);
    let arrows = arrows(rng, n, m, &slots);
    let mut chart = Chart { labels: labels(rng, n), arrows };
    if !timelocks {
        let_time_pass(rng, &mut chart);
    }
    rng.shuffle(&mut chart.arrows);
    chart
}

/// Minutes that, alone, in twos or in threes, come to the largest bound or one beside it.
fn great_minutes(rng: &mut Rng, part: u16) -> u16 {
    let rest = 65_535 - part;
    let beside = rest.saturating_sub(1);
    rng.pick(&[part, part, rest, rest, beside, 0, 1]).min(65_534)
}

/// A tiny chart whose slots add up to about the largest bound, and past it.
pub fn great(rng: &mut Rng) -> Chart {
    let n = rng.within(1, 3);
    let m = n + rng.below(3);
    let part = rng.below(65_536) as u16;
    let part = rng.pick(&[1, 255, 21_845, 32_767, 32_768, part]);
    let mut chart = Chart { labels: labels(rng, n), arrows: Vec::new() };
    for j in 0..m {
        let start = if j < n { j } else { rng.below(n) };
        let x = great_minutes(rng, part);
        let y = if rng.percent(40) { x } else { great_minutes(rng, part) };
        let most = if rng.percent(25) { NO_END } else { x.max(y) };
        chart.arrows.push(arrow(start, rng.below(n), x.min(y), most));
    }
    let_time_pass(rng, &mut chart);
    rng.shuffle(&mut chart.arrows);
    chart
}

#[cfg(test)]
mod tests {
    use super::{great, random, Chart};
    use crate::bytes::rule;
    use crate::named::expected::just_true;
    use crate::random::rng::Rng;

    fn refused(chart: &Chart) -> u32 {
        let n = chart.states();
        oracle::check(&chart.bytes(), &rule::bytes(&just_true()), &mut vec![0; n], &mut vec![0; 4 * n]).number
    }

    #[test]
    fn only_charts_as_they_are_drawn_meet_19() {
        let rng = &mut Rng::new(1);
        assert!((0..2_000).all(|_| refused(&random(rng, false)) == 0));
        assert!((0..2_000).all(|_| refused(&great(rng)) == 0));
        let mut drawn: Vec<u32> = (0..2_000).map(|_| refused(&random(rng, true))).collect();
        drawn.sort();
        drawn.dedup();
        assert_eq!(drawn, [0, 19]);
    }
}
