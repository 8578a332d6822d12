//! The library's count, over lent buffers.

use crate::library_answer::outcome;
use bench::peer::Outcome;

pub fn count(chart: &[u8], rule: &[u8], marks: &mut [u8], scratch: &mut [u32]) -> Outcome {
    outcome(doilystrand::count(chart, rule, marks, scratch))
}
