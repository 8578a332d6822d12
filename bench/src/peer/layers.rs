//! A search over steps: a layer has for each state the least number by runs of exactly so many steps, and each layer comes
//! from the one before it.

use super::arrows::{Arrow, ArrowLists};
use super::counts::{Count, FAR};

/// State in 2 bytes, duration in 4.
pub const POSITION: usize = 6;

pub struct Layers<'a> {
    pub out: &'a ArrowLists,
    /// Room for as many layers as positions may be shown.
    pub numbers: &'a mut [u32],
}

impl Layers<'_> {
    /// The steps of the first layer whose number at `state` is at most `enough`. A run ends with the number that `end`
    /// gives, and only states in `go` are left.
    pub fn search<C: Count>(
        &mut self,
        state: usize,
        enough: u32,
        end: impl Fn(usize) -> u32,
        go: impl Fn(usize) -> bool,
    ) -> Option<usize> {
        let mut layers = self.numbers.chunks_exact_mut(self.out.states());
        let mut after = layers.next()?;
        for (s, number) in after.iter_mut().enumerate() {
            *number = end(s);
        }
        let mut steps = 0;
        while after[state] > enough {
            let layer = layers.next()?;
            for (s, number) in layer.iter_mut().enumerate() {
                *number = if go(s) { least::<C>(self.out.of(s), after) } else { FAR };
            }
            after = layer;
            steps += 1;
        }
        Some(steps)
    }

    /// Writes a run that has the number of `state` in the layer of `steps`; answers its bytes.
    pub fn write<C: Count>(&self, mut state: usize, steps: usize, output: &mut [u8]) -> usize {
        let output = &mut output[..(steps + 1) * POSITION];
        for (taken, position) in output.chunks_exact_mut(POSITION).enumerate() {
            let (next, duration) = if taken < steps { self.onward::<C>(state, steps - taken) } else { (state, 0) };
            position[..2].copy_from_slice(&(state as u16).to_be_bytes());
            position[2..].copy_from_slice(&duration.to_be_bytes());
            state = next;
        }
        output.len()
    }

    /// The next state, and the minutes to it, of a run that has the number of `state` with so many steps left.
    fn onward<C: Count>(&self, state: usize, left: usize) -> (usize, u32) {
        let n = self.out.states();
        let (after, number) = (&self.numbers[(left - 1) * n..left * n], self.numbers[left * n + state]);
        for arrow in self.out.of(state) {
            let next = usize::from(arrow.other);
            if C::step(arrow, after[next]) == number {
                return (next, C::duration(arrow, after[next]));
            }
        }
        unreachable!("every number of a later layer comes by an arrow")
    }
}

fn least<C: Count>(arrows: &[Arrow], after: &[u32]) -> u32 {
    let numbers = arrows.iter().map(|arrow| C::step(arrow, after[usize::from(arrow.other)]));
    numbers.fold(FAR, u32::min)
}
