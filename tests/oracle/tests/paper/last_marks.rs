//! The marks of a rule, by check and by count.

use crate::make::{check_scratch, rule, NodeFields};
use oracle::{check, count, Outcome};

/// Marks of the last node, states in order. Count marks the same if the bound isn't above 255.
pub fn last_marks(chart: &[u8], nodes: &[NodeFields]) -> String {
    let n = usize::from(chart[5]) << 8 | usize::from(chart[6]);
    let (mut marks, mut counted) = (vec![7; n * nodes.len()], vec![7; n * nodes.len()]);
    let outcome = check(chart, &rule(nodes), &mut marks, &mut vec![9; check_scratch(n, nodes)]);
    assert_eq!(outcome, Outcome { number: 0, place: 0, entry: 0 });
    match count(chart, &rule(nodes), &mut counted, &mut vec![9; 256 * n]).number {
        63 => assert!(nodes[nodes.len() - 1].4 > 255),
        number => assert_eq!((number, &counted), (0, &marks)),
    }
    marks[n * (nodes.len() - 1)..].iter().map(|mark| mark.to_string()).collect()
}
