//! Rules of 64 nodes that are one path down: as deep as so many nodes can be over the node at their foot.

use crate::bytes;
use crate::nodes::{all_runs, always, label, not, some_run, AT_LEAST, AT_MOST, EXACTLY, MOST_EXACT};

/// The most nodes of a rule.
pub const NODES: usize = 64;

/// An until of each operation and kind at the foot of the path, and a path without one. Exact bounds only go to theirs.
pub fn rules(c: u16) -> Vec<Vec<u8>> {
    let exact = c.min(MOST_EXACT);
    let untils = [
        some_run(0, 1, AT_MOST, c),
        some_run(0, 1, AT_LEAST, c),
        some_run(0, 1, EXACTLY, exact),
        all_runs(0, 1, AT_MOST, c),
        all_runs(0, 1, AT_LEAST, c),
        all_runs(0, 1, EXACTLY, exact),
    ];
    let mut feet: Vec<_> = untils.map(|until| vec![label(0), label(1), until]).into();
    feet.push(vec![always()]);
    feet.into_iter().map(under_nots).collect()
}

/// The foot's last node under as many nots as there is room for.
fn under_nots(mut nodes: Vec<bytes::Node>) -> Vec<u8> {
    while nodes.len() < NODES {
        nodes.push(not(nodes.len() as u16 - 1));
    }
    bytes::rule(&nodes)
}
