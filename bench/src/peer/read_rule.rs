//! Reading a rule typed as text, by recursive descent: refusals 64 to 66.

use super::rule::{Bound, Node, MOST_EXACT};
use super::show::Written;
use super::{refusal, Outcome};

/// The most bytes of a text, and the most nodes of a rule.
const BYTES: usize = 4_096;
const NODES: usize = 64;

/// Writes the rule that the text stands for.
pub fn read_rule(text: &[u8], output: &mut [u8]) -> Written {
    match nodes_of(text).and_then(|nodes| put_rule(&nodes, output)) {
        Ok(written) => Written { outcome: Outcome::ACCEPTED, written },
        Err(refused) => Written { outcome: refused, written: 0 },
    }
}

/// Operands before their node, left first.
fn nodes_of(text: &[u8]) -> Result<Vec<Node>, Outcome> {
    if text.len() > BYTES {
        return Err(refusal(65, 0));
    }
    let mut reader = Reader { text, at: 0, nodes: Vec::with_capacity(NODES) };
    let whole = reader.formula().is_some() && reader.at == text.len();
    match (whole, reader.nodes.len() <= NODES) {
        (false, _) => Err(refusal(64, reader.at)),
        (true, false) => Err(refusal(65, 0)),
        (true, true) => Ok(reader.nodes),
    }
}

/// Takes a byte only where some formula goes on with it, so that it stands at the place of 64 where it can't go on.
struct Reader<'a> {
    text: &'a [u8],
    at: usize,
    nodes: Vec<Node>,
}

impl Reader<'_> {
    /// Answers the formula's node. A text nests at most as deep as it is long: 4,096 calls in one another, for which half
    /// a MiB of stack is enough.
    fn formula(&mut self) -> Option<usize> {
        let node = match self.text.get(self.at)? {
            b't' => self.word(b"true").map(|()| Node::True)?,
            b'L' => self.label()?,
            b'!' => {
                self.at += 1;
                Node::Not(self.formula()?)
            }
            b'(' => self.pair()?,
            b'E' => {
                let (a, b, bound) = self.until()?;
                Node::SomeRun(a, b, bound)
            }
            b'A' => {
                let (a, b, bound) = self.until()?;
                Node::AllRuns(a, b, bound)
            }
            _ => return None,
        };
        self.nodes.push(node);
        Some(self.nodes.len() - 1)
    }

    fn label(&mut self) -> Option<Node> {
        self.at += 1;
        let first = self.digit(|_| true)?;
        let second = self.digit(|second| first == 1 && second <= 5);
        Some(Node::Label(second.map_or(first, |second| 10 + second) as u16))
    }

    fn pair(&mut self) -> Option<Node> {
        self.at += 1;
        let a = self.formula()?;
        self.word(b" ")?;
        let and = self.either(b'&', b'|')?;
        self.word(b" ")?;
        let b = self.formula()?;
        self.word(b")")?;
        Some(if and { Node::And(a, b) } else { Node::Or(a, b) })
    }

    /// From the letter on: both operands and the bound between them.
    fn until(&mut self) -> Option<(usize, usize, Bound)> {
        self.at += 1;
        self.word(b"(")?;
        let a = self.formula()?;
        self.word(b" U")?;
        let bound = self.bound()?;
        self.word(b" ")?;
        let b = self.formula()?;
        self.word(b")")?;
        Some((a, b, bound))
    }

    fn bound(&mut self) -> Option<Bound> {
        let sign = *self.text.get(self.at)?;
        let (bound, most): (fn(u32) -> Bound, u32) = match sign {
            b'<' => (Bound::AtMost, 65_535),
            b'>' => (Bound::AtLeast, 65_535),
            b'=' => (Bound::Exactly, MOST_EXACT),
            _ => return None,
        };
        self.at += 1;
        self.word(b"=")?;
        self.minutes(most).map(bound)
    }

    /// Without leading zeros.
    fn minutes(&mut self, most: u32) -> Option<u32> {
        let mut c = self.digit(|_| true)?;
        while let Some(digit) = self.digit(|digit| c > 0 && 10 * c + digit <= most) {
            c = 10 * c + digit;
        }
        Some(c)
    }

    /// The next byte, if it is a digit that goes on here.
    fn digit(&mut self, goes_on: impl Fn(u32) -> bool) -> Option<u32> {
        let digit = u32::from(self.text.get(self.at)?.wrapping_sub(b'0'));
        (digit <= 9 && goes_on(digit)).then(|| {
            self.at += 1;
            digit
        })
    }

    fn word(&mut self, word: &[u8]) -> Option<()> {
        for byte in word {
            (self.text.get(self.at)? == byte).then(|| self.at += 1)?;
        }
        Some(())
    }

    /// Whether the next byte is the first of the two; it has to be one of them.
    fn either(&mut self, first: u8, second: u8) -> Option<bool> {
        let byte = *self.text.get(self.at)?;
        let is_first = byte == first;
        (is_first || byte == second).then(|| {
            self.at += 1;
            is_first
        })
    }
}

fn put_rule(nodes: &[Node], output: &mut [u8]) -> Result<usize, Outcome> {
    let length = 7 + 8 * nodes.len();
    let output = output.get_mut(..length).ok_or(refusal(66, 0))?;
    let (head, rest) = output.split_at_mut(7);
    head[0] = 1;
    head[1..5].copy_from_slice(&(length as u32).to_be_bytes());
    head[5..].copy_from_slice(&(nodes.len() as u16).to_be_bytes());
    for (place, node) in rest.chunks_exact_mut(8).zip(nodes) {
        place.copy_from_slice(&node_bytes(node));
    }
    Ok(length)
}

fn node_bytes(node: &Node) -> [u8; 8] {
    let (operation, kind, a, b, c) = match *node {
        Node::True => (0, 0, 0, 0, 0),
        Node::Label(a) => (1, 0, a, 0, 0),
        Node::Not(a) => (2, 0, a as u16, 0, 0),
        Node::And(a, b) => (3, 0, a as u16, b as u16, 0),
        Node::Or(a, b) => (4, 0, a as u16, b as u16, 0),
        Node::SomeRun(a, b, bound) => until_words(5, a, b, bound),
        Node::AllRuns(a, b, bound) => until_words(6, a, b, bound),
    };
    let ([a, d], [b, e], [c, f]) = (u16::to_be_bytes(a), u16::to_be_bytes(b), u16::to_be_bytes(c));
    [operation, kind, a, d, b, e, c, f]
}

fn until_words(operation: u8, a: usize, b: usize, bound: Bound) -> (u8, u8, u16, u16, u16) {
    let (kind, c) = match bound {
        Bound::AtMost(c) => (1, c),
        Bound::AtLeast(c) => (2, c),
        Bound::Exactly(c) => (3, c),
    };
    (operation, kind, a as u16, b as u16, c as u16)
}
