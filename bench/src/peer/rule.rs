//! A rule's bytes: refusals 10 to 16, and the nodes.

use super::{refusal, stated_length, word, Outcome};

#[derive(Clone, Copy)]
pub enum Bound {
    AtMost(u32),
    AtLeast(u32),
    Exactly(u32),
}

/// The greatest exact bound.
pub const MOST_EXACT: u32 = 255;

#[derive(Clone, Copy)]
pub enum Node {
    True,
    Label(u16),
    Not(usize),
    And(usize, usize),
    Or(usize, usize),
    SomeRun(usize, usize, Bound),
    AllRuns(usize, usize, Bound),
}

pub struct Rule {
    pub nodes: Vec<Node>,
}

impl Rule {
    pub fn read(bytes: &[u8]) -> Result<Rule, Outcome> {
        refuse_head(bytes)?;
        let nodes = read_nodes(&bytes[7..])?;
        refuse_operands(&nodes)?;
        Ok(Rule { nodes })
    }

    /// Whether some bound is exact.
    pub fn is_exact(&self) -> bool {
        let exact = |node: &Node| {
            matches!(node, Node::SomeRun(_, _, Bound::Exactly(_)) | Node::AllRuns(_, _, Bound::Exactly(_)))
        };
        self.nodes.iter().any(exact)
    }
}

/// Refusals 10 to 13.
fn refuse_head(bytes: &[u8]) -> Result<(), Outcome> {
    if bytes.len() < 7 {
        return Err(refusal(10, 0));
    }
    if bytes[0] != 1 {
        return Err(refusal(11, 0));
    }
    if stated_length(bytes) != bytes.len() {
        return Err(refusal(12, 0));
    }
    let k = usize::from(word(bytes, 5));
    if !(1..=64).contains(&k) || bytes.len() != 7 + 8 * k {
        return Err(refusal(13, 0));
    }
    Ok(())
}

/// Refusal 14.
fn read_nodes(bytes: &[u8]) -> Result<Vec<Node>, Outcome> {
    let nodes = bytes.chunks_exact(8).enumerate();
    nodes.map(|(t, node)| read_node(node).ok_or(refusal(14, t))).collect()
}

fn read_node(bytes: &[u8]) -> Option<Node> {
    let (a, b, c) = (word(bytes, 2), word(bytes, 4), word(bytes, 6));
    let (left, right) = (usize::from(a), usize::from(b));
    match (bytes[0], bytes[1]) {
        (0, 0) if (a, b, c) == (0, 0, 0) => Some(Node::True),
        (1, 0) if a <= 15 && (b, c) == (0, 0) => Some(Node::Label(a)),
        (2, 0) if (b, c) == (0, 0) => Some(Node::Not(left)),
        (3, 0) if c == 0 => Some(Node::And(left, right)),
        (4, 0) if c == 0 => Some(Node::Or(left, right)),
        (5, kind) => Some(Node::SomeRun(left, right, bound(kind, c)?)),
        (6, kind) => Some(Node::AllRuns(left, right, bound(kind, c)?)),
        _ => None,
    }
}

fn bound(kind: u8, c: u16) -> Option<Bound> {
    match kind {
        1 => Some(Bound::AtMost(u32::from(c))),
        2 => Some(Bound::AtLeast(u32::from(c))),
        3 if u32::from(c) <= MOST_EXACT => Some(Bound::Exactly(u32::from(c))),
        _ => None,
    }
}

impl Node {
    fn operands(self) -> (Option<usize>, Option<usize>) {
        match self {
            Node::True | Node::Label(_) => (None, None),
            Node::Not(a) => (Some(a), None),
            Node::And(a, b) | Node::Or(a, b) => (Some(a), Some(b)),
            Node::SomeRun(a, b, _) | Node::AllRuns(a, b, _) => (Some(a), Some(b)),
        }
    }
}

/// Refusals 15 and 16; 15 is looked for in every node before uses are counted.
fn refuse_operands(nodes: &[Node]) -> Result<(), Outcome> {
    let mut uses = vec![0u8; nodes.len()];
    for (t, node) in nodes.iter().enumerate() {
        let (a, b) = node.operands();
        for operand in a.into_iter().chain(b) {
            if operand >= t {
                return Err(refusal(15, t));
            }
            uses[operand] += 1;
        }
    }
    match uses[..nodes.len() - 1].iter().position(|&count| count != 1) {
        Some(t) => Err(refusal(16, t)),
        None => Ok(()),
    }
}
