//! The rows of the plain peer: each by rounds over the arrows, as the chart lists them, until nothing changes.

use super::arrows::Arrow;
use super::rows::{begin, Rows};
use super::slots::Slot;

/// An arrow with its start; the other end is where it leads.
type Listed = (u16, Arrow);

pub struct Rounds<'a> {
    arrows: Vec<Listed>,
    /// Those of them that can take no time.
    instant: Vec<Listed>,
    /// By row and state one more than the last row up to this one that has the state; 0 if none has.
    numbers: &'a mut [u32],
    /// The states that every row has.
    always: Vec<bool>,
    /// The states that a row has if an arrow leads from them to one that has its end.
    goes: Vec<bool>,
}

impl<'a> Rounds<'a> {
    pub fn new(n: usize, arrows: impl Iterator<Item = Listed>, numbers: &'a mut [u32]) -> Rounds<'a> {
        let arrows: Vec<Listed> = arrows.collect();
        let instant = arrows.iter().copied().filter(|(_, arrow)| arrow.fewest == 0).collect();
        Rounds { arrows, instant, numbers, always: vec![false; n], goes: vec![false; n] }
    }

    /// The row begins with what it always has.
    fn begin(&mut self, left: usize) {
        let n = self.goes.len();
        begin(self.numbers, n, left);
        for (number, &always) in self.numbers[left * n..].iter_mut().zip(&self.always) {
            if always {
                *number = left as u32 + 1;
            }
        }
    }

    /// Rounds until nothing changes. After the first only arrows that can take no time may lead on to what is new.
    fn follow(&mut self, left: usize, leads: impl Fn(&Arrow, &[u32]) -> bool) {
        if round(&self.arrows, &self.goes, self.numbers, left, &leads) {
            while round(&self.instant, &self.goes, self.numbers, left, &leads) {}
        }
    }
}

/// Follows those arrows once, in order. Whether the row has got a state by it.
fn round(
    arrows: &[Listed],
    goes: &[bool],
    numbers: &mut [u32],
    left: usize,
    leads: impl Fn(&Arrow, &[u32]) -> bool,
) -> bool {
    let (here, now) = (left * goes.len(), left as u32 + 1);
    let mut changed = false;
    for (start, arrow) in arrows {
        let start = usize::from(*start);
        if goes[start] && numbers[here + start] != now && leads(arrow, numbers) {
            numbers[here + start] = now;
            changed = true;
        }
    }
    changed
}

impl Rows for Rounds<'_> {
    fn choose(&mut self, always: impl Fn(usize) -> bool, go: impl Fn(usize) -> bool) {
        for s in 0..self.goes.len() {
            self.always[s] = always(s);
            self.goes[s] = go(s);
        }
    }

    fn reach(&mut self) {
        self.begin(0);
        let leads = |arrow: &Arrow, row: &[u32]| row[usize::from(arrow.other)] == 1;
        while round(&self.arrows, &self.goes, self.numbers, 0, leads) {}
    }

    /// Everybody may wait, as long as it isn't asked where to. A step that takes time leads to who may by the wait
    /// before; so a wait leaves fewer of them, until all that are left have others to wait with.
    fn reach_or_wait(&mut self) {
        let n = self.goes.len();
        let mut before = vec![1; n];
        loop {
            self.begin(0);
            self.follow(0, |arrow, row| {
                let end = usize::from(arrow.other);
                arrow.most > 0 && before[end] == 1 || arrow.fewest == 0 && row[end] == 1
            });
            if self.numbers[..n] == before {
                return;
            }
            before.copy_from_slice(&self.numbers[..n]);
        }
    }

    fn fill<S: Slot>(&mut self, left: usize) {
        let n = self.goes.len();
        self.begin(left);
        self.follow(left, |arrow, numbers| S::leads(arrow, left, |row| numbers[row * n + usize::from(arrow.other)]));
    }

    fn has(&self, row: usize, state: usize) -> bool {
        self.numbers[row * self.goes.len() + state] as usize == row + 1
    }
}
