//! Random formulas of so many nodes: every operation and label, and bounds of every length. Left first, as a text
//! numbers them.

use crate::bytes::rule::{node, plain, Node, A, AND, AT_LEAST, AT_MOST, E, EXACTLY, LABEL, NOT, OR, TRUE};
use crate::random::rng::Rng;

/// Where the number of digits changes, and where the greatest begins.
const BOUNDS: [usize; 18] =
    [0, 1, 9, 10, 99, 100, 999, 1_000, 9_999, 10_000, 59_999, 60_000, 65_499, 65_500, 65_529, 65_530, 65_534, 65_535];

/// The same of exact ones.
const EXACT_BOUNDS: [usize; 14] = [0, 1, 9, 10, 99, 100, 199, 200, 249, 250, 254, 255, 255, 255];

fn bound(rng: &mut Rng) -> usize {
    match rng.below(4) {
        0 => rng.below(65_536),
        1 => rng.below(300),
        _ => rng.pick(&BOUNDS),
    }
}

fn exact_bound(rng: &mut Rng) -> usize {
    if rng.percent(50) {
        return rng.below(256);
    }
    rng.pick(&EXACT_BOUNDS)
}

fn leaf(rng: &mut Rng) -> Node {
    if rng.percent(25) {
        return plain(TRUE, 0, 0);
    }
    plain(LABEL, rng.below(16), 0)
}

fn joined(rng: &mut Rng, a: usize, b: usize) -> Node {
    if rng.percent(40) {
        return plain(rng.pick(&[AND, OR]), a, b);
    }
    let (operation, kind) = (rng.pick(&[E, A]), rng.pick(&[AT_MOST, AT_LEAST, EXACTLY]));
    let c = if kind == EXACTLY { exact_bound(rng) } else { bound(rng) };
    node(operation, kind, a, b, c)
}

/// Appends a formula; its node is the last one.
fn grow(rng: &mut Rng, size: usize, out: &mut Vec<Node>) {
    if size <= 1 {
        out.push(leaf(rng));
        return;
    }
    if size == 2 || rng.percent(20) {
        grow(rng, size - 1, out);
        out.push(plain(NOT, out.len() - 1, 0));
        return;
    }
    let first = rng.within(1, size - 2);
    grow(rng, first, out);
    let a = out.len() - 1;
    grow(rng, size - 1 - first, out);
    let b = out.len() - 1;
    out.push(joined(rng, a, b));
}

pub fn random(rng: &mut Rng, size: usize) -> Vec<Node> {
    let mut nodes = Vec::with_capacity(size);
    grow(rng, size, &mut nodes);
    nodes
}

#[cfg(test)]
mod tests {
    use super::random;
    use crate::bytes::text::{left_first, text};
    use crate::random::rng::Rng;

    #[test]
    fn the_oracle_reads_the_text_of_each() {
        let rng = &mut Rng::new(5);
        for size in (1..=64).cycle().take(2_000) {
            let nodes = random(rng, size);
            assert_eq!((nodes.len(), left_first(&nodes)), (size, nodes.clone()));
            let mut rule = [0; 519];
            let read = oracle::read_rule(&text(&nodes), &mut rule);
            assert_eq!((read.outcome.number, &rule[..read.written]), (0, &crate::bytes::rule::bytes(&nodes)[..]));
        }
    }
}
