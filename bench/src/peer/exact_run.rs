//! A run that comes to Q after exactly so many minutes, by a search over pairs of a state and the minutes passed, all pairs
//! of one step after those of the step before.

use super::arrows::{Arrow, ArrowLists};
use super::layers::POSITION;

pub struct ExactRun<'a> {
    out: &'a ArrowLists,
    p: &'a [u8],
    q: &'a [u8],
    c: usize,
    /// The minutes at which no run has come to each state yet.
    unseen: Vec<Minutes>,
    /// By minutes and state the pair one step before, and 1 more.
    before: &'a mut [u32],
}

impl<'a> ExactRun<'a> {
    /// `before` has room for a number a state for each of the minutes 0 to c.
    pub fn new(out: &'a ArrowLists, p: &'a [u8], q: &'a [u8], c: usize, before: &'a mut [u32]) -> ExactRun<'a> {
        ExactRun { out, p, q, c, unseen: vec![Minutes::up_to(c); out.states()], before }
    }

    /// Writes the run from that state, if one of so many positions at most is there; answers its bytes.
    pub fn write(mut self, state: usize, positions: usize, output: &mut [u8]) -> Option<usize> {
        let mut layer = vec![state as u32];
        self.unseen[state].take(0, 0, |_| ());
        for taken in 0..positions {
            if let Some(&last) = layer.iter().find(|&&pair| self.ends(pair)) {
                return Some(self.put(last, &mut output[..(taken + 1) * POSITION]));
            }
            layer = self.next(&layer);
        }
        None
    }

    fn states(&self) -> u32 {
        self.out.states() as u32
    }

    /// The state of a pair, and the minutes passed.
    fn parts(&self, pair: u32) -> (usize, usize) {
        ((pair % self.states()) as usize, (pair / self.states()) as usize)
    }

    fn ends(&self, pair: u32) -> bool {
        let (state, minutes) = self.parts(pair);
        minutes == self.c && self.q[state] == 1
    }

    fn next(&mut self, layer: &[u32]) -> Vec<u32> {
        let mut next = Vec::new();
        for &pair in layer {
            let (state, minutes) = self.parts(pair);
            if self.p[state] == 1 {
                self.out.of(state).iter().for_each(|arrow| self.follow(pair, minutes, arrow, &mut next));
            }
        }
        next
    }

    fn follow(&mut self, pair: u32, minutes: usize, arrow: &Arrow, next: &mut Vec<u32>) {
        let (n, end) = (self.states(), usize::from(arrow.other));
        let (first, last) = (minutes + usize::from(arrow.fewest), minutes + usize::from(arrow.most));
        let before = &mut *self.before;
        self.unseen[end].take(first, last, |minutes| {
            let reached = minutes as u32 * n + end as u32;
            before[reached as usize] = pair + 1;
            next.push(reached);
        });
    }

    /// From the last position back to the first.
    fn put(&self, last: u32, output: &mut [u8]) -> usize {
        let (mut pair, mut later) = (last, self.parts(last).1);
        for position in output.chunks_exact_mut(POSITION).rev() {
            let (state, minutes) = self.parts(pair);
            position[..2].copy_from_slice(&(state as u16).to_be_bytes());
            position[2..].copy_from_slice(&((later - minutes) as u32).to_be_bytes());
            // The first one has none before it.
            pair = self.before[pair as usize].saturating_sub(1);
            later = minutes;
        }
        output.len()
    }
}

/// A set of minutes from 0 to 255, a bit each.
#[derive(Clone, Copy)]
struct Minutes([u64; 4]);

impl Minutes {
    fn up_to(c: usize) -> Minutes {
        Minutes([0, 1, 2, 3].map(|word| within(word, 0, c)))
    }

    /// Takes those from first to last out, and hands each to `taken`.
    fn take(&mut self, first: usize, last: usize, mut taken: impl FnMut(usize)) {
        for word in first / 64..(last / 64 + 1).min(4) {
            let mut found = self.0[word] & within(word, first, last);
            self.0[word] &= !found;
            while found != 0 {
                taken(word * 64 + found.trailing_zeros() as usize);
                found &= found - 1;
            }
        }
    }
}

/// The bits of that word that stand for minutes from first to last.
fn within(word: usize, first: usize, last: usize) -> u64 {
    let below = |end: usize| match end.saturating_sub(word * 64) {
        bits @ 0..64 => (1 << bits) - 1,
        _ => u64::MAX,
    };
    below(last + 1) & !below(first)
}
