//! Which run is asked for: a node and a state, mostly in range.

use crate::bytes::rule;
use crate::random::rng::Rng;

/// Past the limit: by one, by little, by what 8, 16 or 32 bits would lose, or as far as can be.
fn out_of_range(rng: &mut Rng, limit: usize) -> usize {
    let inside = rng.below(limit);
    rng.pick(&[limit, limit, limit + 1, 256 + inside, 65_536 + inside, (1 << 32) + inside, usize::MAX])
}

/// Mostly an until of the rule's bytes, if there is one.
fn node(rng: &mut Rng, rule: &[u8]) -> usize {
    let operations: Vec<u8> = rule.get(7..).unwrap_or(&[]).chunks_exact(8).map(|node| node[0]).collect();
    let untils: Vec<usize> = (0..operations.len()).filter(|&t| matches!(operations[t], rule::E | rule::A)).collect();
    match rng.below(24) {
        0 => out_of_range(rng, operations.len()),
        1 | 2 => rng.below(operations.len()),
        _ if untils.is_empty() => rng.below(operations.len()),
        _ => rng.pick(&untils),
    }
}

fn state(rng: &mut Rng, n: usize) -> usize {
    if rng.below(24) == 0 {
        return out_of_range(rng, n);
    }
    rng.below(n)
}

/// Node and state, for these bytes.
pub fn random(rng: &mut Rng, chart: &[u8], rule: &[u8]) -> [usize; 2] {
    let n = chart.get(5..7).map_or(0, |two| usize::from(u16::from_be_bytes([two[0], two[1]])));
    [node(rng, rule), state(rng, n)]
}
