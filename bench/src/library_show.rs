//! The library's show, over lent buffers.

use crate::library_answer::written;
use bench::peer::Written;

pub fn show(
    chart: &[u8],
    rule: &[u8],
    marks: &mut [u8],
    scratch: &mut [u32],
    node: usize,
    state: usize,
    output: &mut [u8],
) -> Written {
    written(doilystrand::show(chart, rule, marks, scratch, node, state, output).map(|run| run.bytes().len()))
}
