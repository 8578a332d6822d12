//! Texts about the limits: 4,096 bytes, 64 nodes, the longest text of a rule, and the deepest that so many bytes can
//! be.

use crate::bytes::rule::{node, plain, Node, A, AND, E, NOT, TRUE};
use crate::bytes::text::text;
use crate::random::edits;
use crate::random::formulas;
use crate::random::rng::Rng;

/// The most bytes of a text.
pub const MOST: usize = 4_096;

/// A piece again and again, up to just so many bytes.
fn repeated(piece: &[u8], length: usize) -> Vec<u8> {
    piece.iter().copied().cycle().take(length).collect()
}

/// Nots before a text, up to just so many bytes.
pub fn under_nots(text: &[u8], length: usize) -> Vec<u8> {
    [&vec![b'!'; length.saturating_sub(text.len())], text].concat()
}

/// Formulas in one another by one operand, up to just so many bytes.
pub fn nested(length: usize, left: bool) -> Vec<u8> {
    let deep = (length - 2) / 7;
    let (opening, closing) = if left { ("(", " & L1)") } else { ("(L1 & ", ")") };
    under_nots(format!("{}L1{}", opening.repeat(deep), closing.repeat(deep)).as_bytes(), length)
}

/// 64 nodes, of which 31 are untils of five digits, each in the next: 532 bytes.
pub fn longest_of_64() -> Vec<Node> {
    let mut nodes = vec![plain(TRUE, 0, 0)];
    for t in (1..62).step_by(2) {
        nodes.extend([plain(TRUE, 0, 0), node(if t % 4 == 1 { E } else { A }, 1, t - 1, t, 65_535)]);
    }
    nodes.push(plain(NOT, 62, 0));
    nodes
}

/// As many nodes as may just be, or one more or less.
fn about_64_nodes(rng: &mut Rng) -> Vec<u8> {
    let size = rng.pick(&[63, 64, 64, 65, 65, 66]);
    match rng.below(4) {
        0 => under_nots(b"true", size + 3),
        1 => under_nots(b"L7", size + 1),
        _ => text(&formulas::random(rng, size)),
    }
}

/// The longest text of a rule, mostly with an edit.
fn about_the_longest(rng: &mut Rng) -> Vec<u8> {
    let longest = text(&longest_of_64());
    match rng.below(3) {
        0 => longest,
        1 => edits::random(rng, &longest),
        _ => under_nots(&longest, longest.len() + 1),
    }
}

/// Just as many bytes as are read, or one more or less.
fn about_4_096_bytes(rng: &mut Rng) -> Vec<u8> {
    let length = rng.pick(&[MOST - 1, MOST, MOST, MOST + 1, MOST + 1, MOST + 2]);
    let whole = match rng.below(10) {
        0 => repeated(b"!", length),
        1 => repeated(rng.pick(&[&b"("[..], b"A(", b"E(", b"(L1 & ", b"E(true U<=0 "]), length),
        2 => repeated(b"?", length),
        3 => under_nots(b"true", length),
        4 | 5 => nested(length, rng.percent(50)),
        _ => under_nots(&text(&large(rng)), length),
    };
    match rng.below(3) {
        0 => edits::random(rng, &whole),
        1 => at_the_end(rng, whole),
        _ => whole,
    }
}

/// A formula of nearly 4,096 bytes.
fn large(rng: &mut Rng) -> Vec<Node> {
    let mut nodes = formulas::random(rng, 400);
    while text(&nodes).len() < MOST - 400 {
        let (first, more) = (nodes.len(), formulas::random(rng, 40));
        nodes.extend(more.into_iter().map(|node| moved(node, first as u16)));
        nodes.push(plain(AND, first - 1, nodes.len() - 1));
    }
    nodes
}

fn moved(mut node: Node, by: u16) -> Node {
    if node.operands() > 0 {
        node.a += by;
    }
    if node.operands() > 1 {
        node.b += by;
    }
    node
}

/// Another last byte.
fn at_the_end(rng: &mut Rng, mut text: Vec<u8>) -> Vec<u8> {
    text.pop();
    text.push(rng.pick(b")!1 &\n\xFF"));
    text
}

pub fn random(rng: &mut Rng) -> Vec<u8> {
    match rng.below(8) {
        0..=2 => about_64_nodes(rng),
        3 => about_the_longest(rng),
        _ => about_4_096_bytes(rng),
    }
}

#[cfg(test)]
mod tests {
    use super::{large, longest_of_64, nested, random, under_nots, MOST};
    use crate::bytes::text::text;
    use crate::random::rng::Rng;

    fn number(text: &[u8]) -> u32 {
        oracle::read_rule(text, &mut [0; 519]).outcome.number
    }

    #[test]
    fn the_lengths_are_just_so() {
        assert_eq!((longest_of_64().len(), text(&longest_of_64()).len()), (64, 532));
        assert_eq!(number(&text(&longest_of_64())), 0);
        for (length, left) in [(532, true), (533, false), (MOST, true), (MOST, false)] {
            let text = nested(length, left);
            assert_eq!((text.len(), number(&text)), (length, 65));
            assert_eq!(number(&text[..length - 1]), 64);
        }
        assert_eq!((number(&under_nots(b"true", 67)), number(&under_nots(b"true", 68))), (0, 65));
    }

    #[test]
    fn a_large_formula_just_fits() {
        let rng = &mut Rng::new(3);
        for _ in 0..20 {
            let text = under_nots(&text(&large(rng)), MOST);
            assert_eq!((text.len(), number(&text)), (MOST, 65));
        }
    }

    #[test]
    fn all_lengths_and_numbers_come_up() {
        let rng = &mut Rng::new(4);
        let texts: Vec<Vec<u8>> = (0..300).map(|_| random(rng)).collect();
        for length in [532, 533, MOST - 1, MOST, MOST + 1] {
            assert!(texts.iter().any(|text| text.len() == length), "{length}");
        }
        for wanted in [0, 64, 65] {
            assert!(texts.iter().any(|text| number(text) == wanted), "{wanted}");
        }
    }
}
