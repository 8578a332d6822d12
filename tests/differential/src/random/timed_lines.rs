//! Lines of states for an until: slots about its bound or about a part of it, arrows of no time in a row and round, listed
//! and numbered along the line or against it.

use crate::bytes::chart::{arrow, Arrow, Chart, NO_END};
use crate::random::rng::Rng;
use crate::random::timelocks::let_time_pass;

/// The minutes of one line: the bound they are made for, how many arrows in 100 can take no time, whether these can take
/// longer, and whether those that lead back are among them.
struct Minutes {
    c: usize,
    none: usize,
    at_will: bool,
    back: bool,
}

impl Minutes {
    fn random(rng: &mut Rng, c: usize) -> Minutes {
        Minutes { c, none: rng.pick(&[0, 30, 60, 90, 100]), at_will: rng.percent(50), back: rng.percent(60) }
    }

    /// The bound or about half of it, or a minute beside; so that one arrow comes to the bound, or two.
    fn near(&self, rng: &mut Rng) -> usize {
        let about = rng.pick(&[self.c, self.c, self.c / 2, self.c.div_ceil(2)]);
        (about + rng.below(3)).saturating_sub(1)
    }

    /// From `least` up.
    fn slot(&self, rng: &mut Rng, least: usize) -> (u16, u16) {
        let near = self.near(rng);
        if least == 0 && rng.percent(self.none) {
            let most = rng.pick(&[0, 1, near as u16, NO_END]);
            return (0, if self.at_will { most } else { 0 });
        }
        let small = rng.within(1, 4);
        let fewest = rng.pick(&[near, near, small, 0]).max(least);
        let more = rng.pick(&[0, 0, 1, small, near]);
        if rng.percent(10) {
            return (fewest as u16, NO_END);
        }
        (fewest as u16, (fewest + more) as u16)
    }
}

/// Mostly a dozen states at most; now and then all of them, under a small bound, since every minute goes over them.
fn size(rng: &mut Rng, c: usize) -> usize {
    if c <= 5 && rng.below(60) == 0 {
        return rng.pick(&[200, 255, 256, 256, 256]);
    }
    rng.within(2, 12)
}

/// State i leads to state i + 1, the last one back into the line. On some lines others lead anywhere, or a little way back in
/// no time.
fn arrows(rng: &mut Rng, n: usize, minutes: &Minutes) -> Vec<Arrow> {
    let (anywhere, little_back) = (rng.pick(&[8, 8, 35]), rng.pick(&[0, 0, 15, 40]));
    let timed = |rng: &mut Rng, start: usize, end: usize| {
        let (fewest, most) = minutes.slot(rng, usize::from(end <= start && !minutes.back));
        arrow(start, end, fewest, most)
    };
    let mut made = Vec::new();
    for start in 0..n {
        let end = if start + 1 < n { start + 1 } else { rng.below(n) };
        made.push(timed(rng, start, end));
        if rng.percent(anywhere) {
            let end = rng.below(n);
            made.push(timed(rng, start, end));
        }
        if rng.percent(little_back) {
            made.push(arrow(start, start.saturating_sub(rng.below(4)), 0, 0));
        }
    }
    made
}

/// Label 1 at the last state and label 0 before it, on some lines with gaps and with label 1 elsewhere.
fn labels(rng: &mut Rng, n: usize) -> Vec<u16> {
    let (gaps, elsewhere) = (rng.pick(&[0, 5]), rng.pick(&[0, 10]));
    let word = |rng: &mut Rng| u16::from(!rng.percent(gaps)) | u16::from(rng.percent(elsewhere)) << 1;
    let mut labels: Vec<u16> = (0..n).map(|_| word(rng)).collect();
    labels[n - 1] = rng.pick(&[2, 3]);
    labels
}

/// As they are, from the other end, or in any order.
pub fn ordered<T>(rng: &mut Rng, items: &mut [T]) {
    match rng.below(3) {
        0 => {}
        1 => items.reverse(),
        _ => rng.shuffle(items),
    }
}

/// A line that passes 19.
pub fn random(rng: &mut Rng, c: usize) -> Chart {
    let n = size(rng, c);
    let minutes = Minutes::random(rng, c);
    let mut chart = Chart { labels: labels(rng, n), arrows: arrows(rng, n, &minutes) };
    let_time_pass(rng, &mut chart);
    let mut number: Vec<usize> = (0..n).collect();
    ordered(rng, &mut number);
    chart.renumber(&number);
    ordered(rng, &mut chart.arrows);
    chart
}
