//! Charts, rules and maps written as the bytes that the calls take.

/// The most minutes of a slot without end.
pub const NO_END: u16 = u16::MAX;

#[derive(Clone, Copy, Debug)]
pub struct Arrow {
    pub start: u16,
    pub end: u16,
    pub fewest: u16,
    pub most: u16,
}

#[derive(Clone, Copy, Debug)]
pub struct Node {
    pub operation: u8,
    pub kind: u8,
    pub a: u16,
    pub b: u16,
    pub c: u16,
}

fn put(bytes: &mut Vec<u8>, word: u16) {
    bytes.extend_from_slice(&word.to_be_bytes());
}

/// Writes the length of the whole into bytes 1 to 4.
fn seal(mut bytes: Vec<u8>) -> Vec<u8> {
    let length = bytes.len() as u32;
    bytes[1..5].copy_from_slice(&length.to_be_bytes());
    bytes
}

const HEAD: [u8; 5] = [1, 0, 0, 0, 0];

pub fn chart(labels: &[u16], arrows: &[Arrow]) -> Vec<u8> {
    let mut bytes = HEAD.to_vec();
    put(&mut bytes, labels.len() as u16);
    put(&mut bytes, arrows.len() as u16);
    for &label in labels {
        put(&mut bytes, label);
    }
    for arrow in arrows {
        for word in [arrow.start, arrow.end, arrow.fewest, arrow.most] {
            put(&mut bytes, word);
        }
    }
    seal(bytes)
}

pub fn rule(nodes: &[Node]) -> Vec<u8> {
    let mut bytes = HEAD.to_vec();
    put(&mut bytes, nodes.len() as u16);
    for node in nodes {
        bytes.extend_from_slice(&[node.operation, node.kind]);
        for word in [node.a, node.b, node.c] {
            put(&mut bytes, word);
        }
    }
    seal(bytes)
}

pub fn map(entries: &[u16]) -> Vec<u8> {
    let mut bytes = HEAD.to_vec();
    put(&mut bytes, entries.len() as u16);
    for &entry in entries {
        put(&mut bytes, entry);
    }
    seal(bytes)
}
