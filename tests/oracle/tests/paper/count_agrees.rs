//! Count against check: the same marks for every rule that passes.

use crate::make::{chart, l0_l1, label, rule, ArrowFields, NodeFields, Numbers, NO_END, TRUE};
use crate::make::{A, AT_LEAST, AT_MOST, E, EXACTLY};
use oracle::{check, count};

const BOUNDS: [u16; 7] = [0, 1, 2, 3, 5, 13, 255];
const UNTILS: [(u8, u8); 6] = [(E, AT_MOST), (E, AT_LEAST), (E, EXACTLY), (A, AT_MOST), (A, AT_LEAST), (A, EXACTLY)];

fn one_of<T: Copy>(numbers: &mut Numbers, of: &[T]) -> T {
    of[numbers.below(of.len() as u64) as usize]
}

/// Often 0 to 0, and often fewest 0 with a most above it: time can pass on most loops, and on many it needn't.
fn some_arrow(numbers: &mut Numbers, n: u64, start: u64) -> ArrowFields {
    let fewest = one_of(numbers, &[0, 0, 0, 0, 0, 1, 1, 2, 4, 100, 300]);
    let most = match numbers.below(8) {
        0 => NO_END,
        1 => 400,
        _ => fewest + one_of(numbers, &[0, 0, 0, 1, 2, 5, 12]),
    };
    [start as u16, numbers.below(n) as u16, fewest, most]
}

fn some_chart(numbers: &mut Numbers) -> Vec<u8> {
    let n = 1 + numbers.below(8);
    let more: Vec<u64> = (0..numbers.below(2 * n)).map(|_| numbers.below(n)).collect();
    let arrows: Vec<_> = (0..n).chain(more).map(|start| some_arrow(numbers, n, start)).collect();
    let labels: Vec<u16> = (0..n).map(|_| one_of(numbers, &[0, 1, 1, 1, 2, 3])).collect();
    chart(&labels, &arrows)
}

/// Puts a tree's nodes behind those that are there, its top last, and answers the number of the top.
fn some_tree(numbers: &mut Numbers, depth: u32, nodes: &mut Vec<NodeFields>) -> u16 {
    let operation = if depth == 0 { numbers.below(2) as u8 } else { one_of(numbers, &[0, 1, 2, 3, 4, E, E, A, A]) };
    let node = match operation {
        0 => TRUE,
        1 => label(numbers.below(2) as u16),
        2 => (2, 0, some_tree(numbers, depth - 1, nodes), 0, 0),
        _ => {
            let (a, b) = (some_tree(numbers, depth - 1, nodes), some_tree(numbers, depth - 1, nodes));
            let until = operation >= E;
            let kind = if until { one_of(numbers, &[AT_MOST, AT_LEAST, EXACTLY]) } else { 0 };
            (operation, kind, a, b, if until { one_of(numbers, &BOUNDS) } else { 0 })
        }
    };
    nodes.push(node);
    nodes.len() as u16 - 1
}

fn some_rule(numbers: &mut Numbers) -> Vec<u8> {
    let mut nodes = Vec::new();
    some_tree(numbers, 3, &mut nodes);
    rule(&nodes)
}

/// Whether both accepted; outcome and marks are the same in any case.
fn agree(chart: &[u8], rule: &[u8]) -> bool {
    let (n, k) = (usize::from(chart[5]) << 8 | usize::from(chart[6]), usize::from(rule[6]));
    let (mut checked, mut counted) = (vec![7; n * k + 1], vec![7; n * k + 1]);
    let outcome = check(chart, rule, &mut checked, &mut vec![9; 256 * n]);
    assert_eq!(count(chart, rule, &mut counted, &mut vec![9; 256 * n]), outcome, "{chart:?} {rule:?}");
    assert_eq!(counted, checked, "{chart:?} {rule:?}");
    outcome.number == 0
}

#[test]
fn each_until() {
    let mut numbers = Numbers(21);
    for (operation, kind) in UNTILS {
        for c in BOUNDS {
            let accepted = (0..300).filter(|_| agree(&some_chart(&mut numbers), &l0_l1(operation, kind, c))).count();
            assert!(accepted > 150, "{accepted}");
        }
    }
}

#[test]
fn untils_in_untils() {
    let mut numbers = Numbers(22);
    let accepted = (0..4000).filter(|_| agree(&some_chart(&mut numbers), &some_rule(&mut numbers))).count();
    assert!(accepted > 2000, "{accepted}");
}

/// A way through all 256 states in no time, with other arrows beside it.
#[test]
fn the_largest_charts() {
    let mut numbers = Numbers(23);
    for (operation, kind) in UNTILS {
        for q_at in [0, 255] {
            let beside =
                |i: u16| [i % 256, numbers.below(256) as u16, 1 + i % 300, if i % 9 == 0 { NO_END } else { 999 }];
            let mut arrows: Vec<ArrowFields> = (256..2048).map(beside).collect();
            arrows.extend((0..255).map(|s| [s, s + 1, 0, s % 3]));
            arrows.push([255, 255, 1, 1]);
            let labels: Vec<u16> = (0..256).map(|s| if s == q_at { 2 } else { 1 }).collect();
            assert!(agree(&chart(&labels, &arrows), &l0_l1(operation, kind, 255)));
        }
    }
}
