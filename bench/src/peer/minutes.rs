//! The rows of the quick peer: each state goes through its arrows once; those of no time are followed back from what is
//! new.

use super::arrows::{Arrow, ArrowLists};
use super::chart::Chart;
use super::rows::{begin, Rows};
use super::slots::Slot;
use super::waiting::Waiting;

pub struct Minutes<'a> {
    chart: &'a Chart,
    /// The arrows that can take no time, by their end.
    instant: ArrowLists,
    /// By row and state one more than the last row up to this one that has the state; 0 if none has.
    numbers: &'a mut [u32],
    /// The states that every row has.
    always: Vec<u16>,
    /// The states that a row has if an arrow leads from them to one that has its end.
    by_arrow: Vec<u16>,
    /// Whether each state is one of these.
    goes: Vec<bool>,
    /// The states from which the arrows into them are still to be followed.
    fresh: Vec<u16>,
    waiting: Waiting,
}

impl<'a> Minutes<'a> {
    pub fn new(chart: &'a Chart, numbers: &'a mut [u32]) -> Minutes<'a> {
        let n = chart.labels.len();
        let arrows = (0..n).flat_map(|end| chart.into.of(end).iter().map(move |&arrow| (end as u16, arrow)));
        let instant = ArrowLists::group(n, arrows.filter(|(_, arrow)| arrow.fewest == 0));
        let list = || Vec::with_capacity(n);
        Minutes {
            chart,
            instant,
            numbers,
            always: list(),
            by_arrow: list(),
            goes: vec![false; n],
            fresh: list(),
            waiting: Waiting::new(n),
        }
    }
}

impl Rows for Minutes<'_> {
    fn choose(&mut self, always: impl Fn(usize) -> bool, go: impl Fn(usize) -> bool) {
        self.always.clear();
        self.by_arrow.clear();
        for (s, goes) in self.goes.iter_mut().enumerate() {
            *goes = !always(s) && go(s);
            if *goes {
                self.by_arrow.push(s as u16);
            } else if always(s) {
                self.always.push(s as u16);
            }
        }
    }

    fn reach(&mut self) {
        let row = &mut self.numbers[..self.goes.len()];
        row.fill(0);
        self.always.iter().for_each(|&s| row[usize::from(s)] = 1);
        self.fresh.extend_from_slice(&self.always);
        spread(&self.chart.into, &self.goes, &mut self.fresh, row, 1);
    }

    fn reach_or_wait(&mut self) {
        self.waiting.search(&self.chart.out, |s| self.goes[s]);
        for (s, goes) in self.goes.iter_mut().enumerate() {
            if self.waiting.for_ever[s] {
                *goes = false;
                self.always.push(s as u16);
            }
        }
        self.reach();
    }

    /// First by every arrow once, which misses states that this row gets only later, then by the arrows that can take
    /// no time, back from all that it has got.
    fn fill<S: Slot>(&mut self, left: usize) {
        let n = self.goes.len();
        let (here, now) = (left * n, left as u32 + 1);
        begin(self.numbers, n, left);
        self.always.iter().for_each(|&s| self.numbers[here + usize::from(s)] = now);
        for &s in &self.by_arrow {
            let number = |arrow: &Arrow, row: usize| self.numbers[row * n + usize::from(arrow.other)];
            let mut arrows = self.chart.out.of(usize::from(s)).iter();
            if arrows.any(|arrow| S::leads(arrow, left, |row| number(arrow, row))) {
                self.numbers[here + usize::from(s)] = now;
                self.fresh.push(s);
            }
        }
        spread(&self.instant, &self.goes, &mut self.fresh, &mut self.numbers[here..here + n], now);
    }

    fn has(&self, row: usize, state: usize) -> bool {
        self.numbers[row * self.goes.len() + state] as usize == row + 1
    }
}

/// Back from the fresh states over those arrows, until nothing changes.
fn spread(into: &ArrowLists, goes: &[bool], fresh: &mut Vec<u16>, row: &mut [u32], now: u32) {
    while let Some(end) = fresh.pop() {
        for arrow in into.of(usize::from(end)) {
            let start = usize::from(arrow.other);
            if goes[start] && row[start] != now {
                row[start] = now;
                fresh.push(arrow.other);
            }
        }
    }
}
