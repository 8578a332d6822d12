//! Bytes of charts, rules and maps from plain numbers.

/// Start, end, fewest, most.
pub type ArrowFields = [u16; 4];

/// Operation, bound kind, a, b, c.
pub type NodeFields = (u8, u8, u16, u16, u16);

pub const NO_END: u16 = 65_535;
pub const TRUE: NodeFields = (0, 0, 0, 0, 0);

pub fn label(j: u16) -> NodeFields {
    (1, 0, j, 0, 0)
}

pub fn not(a: u16) -> NodeFields {
    (2, 0, a, 0, 0)
}

pub const E: u8 = 5;
pub const A: u8 = 6;
pub const AT_MOST: u8 = 1;
pub const AT_LEAST: u8 = 2;
pub const EXACTLY: u8 = 3;

/// Label 0 until label 1, node 2.
pub fn l0_l1(operation: u8, kind: u8, c: u16) -> Vec<u8> {
    rule(&[label(0), label(1), (operation, kind, 0, 1, c)])
}

/// True until L2, node 2.
pub fn true_l2(operation: u8, kind: u8, c: u16) -> Vec<u8> {
    rule(&[TRUE, label(2), (operation, kind, 0, 1, c)])
}

/// True until true, node 2.
pub fn true_true(operation: u8, kind: u8, c: u16) -> Vec<u8> {
    rule(&[TRUE, TRUE, (operation, kind, 0, 1, c)])
}

/// Version and length in front of what follows.
fn whole(rest: Vec<u8>) -> Vec<u8> {
    let length = rest.len() as u32 + 5;
    [vec![1], length.to_be_bytes().to_vec(), rest].concat()
}

fn words(numbers: &[u16]) -> Vec<u8> {
    numbers.iter().flat_map(|number| number.to_be_bytes()).collect()
}

pub fn chart(labels: &[u16], arrows: &[ArrowFields]) -> Vec<u8> {
    let counts = words(&[labels.len() as u16, arrows.len() as u16]);
    whole([counts, words(labels), words(arrows.as_flattened())].concat())
}

pub fn rule(nodes: &[NodeFields]) -> Vec<u8> {
    let mut rest = words(&[nodes.len() as u16]);
    for &(operation, bound_kind, a, b, c) in nodes {
        rest.extend([operation, bound_kind]);
        rest.extend(words(&[a, b, c]));
    }
    whole(rest)
}

/// A run's bytes from its states and durations.
pub fn run(positions: &[(u16, u32)]) -> Vec<u8> {
    let bytes = |&(state, duration): &(u16, u32)| [words(&[state]), duration.to_be_bytes().to_vec()].concat();
    positions.iter().flat_map(bytes).collect()
}

pub fn map(entries: &[u16]) -> Vec<u8> {
    whole([words(&[entries.len() as u16]), words(entries)].concat())
}

const SHORT_ARROWS: [ArrowFields; 3] = [[0, 1, 5, 10], [1, 2, 0, 4], [2, 0, 20, NO_END]];

pub fn short() -> Vec<u8> {
    chart(&[1, 2, 4], &SHORT_ARROWS)
}

pub fn undo() -> Vec<u8> {
    chart(&[1, 2, 4], &[SHORT_ARROWS.as_slice(), &[[1, 0, 1, 1]]].concat())
}

pub fn one() -> Vec<u8> {
    chart(&[0], &[[0, 0, 1, 1]])
}

/// The scratch numbers that check wants for a rule.
pub fn check_scratch(n: usize, nodes: &[NodeFields]) -> usize {
    match nodes.iter().any(|node| node.1 == EXACTLY) {
        true => 256 * n,
        false => 4 * n,
    }
}

/// Numbers that look random and are the same on every run.
pub struct Numbers(pub u64);

impl Numbers {
    pub fn below(&mut self, end: u64) -> u64 {
        self.0 = self.0.wrapping_mul(6364136223846793005).wrapping_add(1442695040888963407);
        (self.0 >> 33) % end
    }
}
