//! The chart reader.

use crate::answers::ArrowWords;
use crate::chart::{self, Arrow};
use crate::refusals::{first_met, Case};

/// "A chart reader holds the lent chart bytes and the number of the next arrow; it hands out, in order from that number,
/// the arrows of a chart that passes checks 1 to 9, then says finished; over any other bytes it says finished at once."
/// None is finished.
pub struct Reader<'a> {
    chart: &'a [u8],
    number: usize,
    /// Judged once: the bytes stay as they are while they are lent.
    passes: bool,
}

impl<'a> Reader<'a> {
    pub fn new(chart: &'a [u8], number: usize) -> Reader<'a> {
        let passes = !first_met(&Case::chart(chart), &[1..=9]).refused();
        Reader { chart, number, passes }
    }

    /// The number of the next arrow.
    pub fn number(&self) -> usize {
        self.number
    }

    /// What it would hand out now.
    pub fn peek(&self) -> Option<ArrowWords> {
        if !self.passes {
            return None;
        }
        let Arrow { start, end, fewest, most } = chart::arrow(self.chart, self.number)?;
        Some(ArrowWords { start, end, fewest, most })
    }
}

/// After an arrow it stands at the next number; after finished it stays where it is.
impl Iterator for Reader<'_> {
    type Item = ArrowWords;

    fn next(&mut self) -> Option<ArrowWords> {
        let handed = self.peek()?;
        self.number += 1;
        Some(handed)
    }
}

/// What a chart reader at this number hands out.
pub fn arrow(chart: &[u8], number: usize) -> Option<ArrowWords> {
    Reader::new(chart, number).peek()
}
