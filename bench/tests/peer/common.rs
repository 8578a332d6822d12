//! What the tests share.

use bench::bytes::{self, Arrow, Node};
use bench::peer::{self, Outcome, Written};

pub fn arrow(start: u16, end: u16, fewest: u16, most: u16) -> Arrow {
    Arrow { start, end, fewest, most }
}

pub fn node(operation: u8, kind: u8, a: u16, b: u16, c: u16) -> Node {
    Node { operation, kind, a, b, c }
}

pub fn word(bytes: &[u8], at: usize) -> u16 {
    u16::from_be_bytes([bytes[at], bytes[at + 1]])
}

/// The arrows that a chart's bytes hold, in order.
pub fn arrows_of(chart: &[u8]) -> Vec<Arrow> {
    let first = 9 + 2 * usize::from(word(chart, 5));
    let arrows = chart[first..].chunks(8);
    arrows.map(|a| arrow(word(a, 0), word(a, 2), word(a, 4), word(a, 6))).collect()
}

/// Number, place and entry.
pub type Told = (u32, u32, u32);

pub fn told(Outcome { number, place, entry }: Outcome) -> Told {
    (number, place, entry)
}

/// Outcome of the peer with the largest tables.
pub fn outcome(chart: &[u8], rule: &[u8]) -> Told {
    told(call(chart, rule, 64 * 256, 256 * 256).outcome)
}

/// What the lent tables hold before a call.
pub const LENT_MARK: u8 = 0xAA;
pub const LENT_NUMBER: u32 = 0xAAAA_AAAA;

pub struct Answer {
    pub outcome: Outcome,
    pub marks: Vec<u8>,
    pub scratch: Vec<u32>,
}

pub fn call(chart: &[u8], rule: &[u8], marks: usize, scratch: usize) -> Answer {
    let (mut marks, mut scratch) = (vec![LENT_MARK; marks], vec![LENT_NUMBER; scratch]);
    let outcome = peer::check(chart, rule, &mut marks, &mut scratch);
    Answer { outcome, marks, scratch }
}

pub struct ShowAnswer {
    pub answer: Written,
    pub marks: Vec<u8>,
    pub scratch: Vec<u32>,
    pub output: Vec<u8>,
}

/// What show is asked for, and how much is lent to it.
#[derive(Clone, Copy)]
pub struct Ask {
    pub node: usize,
    pub state: usize,
    pub marks: usize,
    pub scratch: usize,
    pub output: usize,
}

pub fn show(chart: &[u8], rule: &[u8], ask: Ask) -> ShowAnswer {
    let (mut marks, mut scratch) = (vec![LENT_MARK; ask.marks], vec![LENT_NUMBER; ask.scratch]);
    let mut output = vec![LENT_MARK; ask.output];
    let answer = peer::show(chart, rule, &mut marks, &mut scratch, ask.node, ask.state, &mut output);
    ShowAnswer { answer, marks, scratch, output }
}

/// The numbers that check asks for: more if some bound is exact.
pub fn check_scratch(n: usize, nodes: &[Node]) -> usize {
    n * if nodes.iter().any(|node| node.kind == 3) { 256 } else { 4 }
}

/// The marks of an accepted call, after tables a little longer than asked for are found kept at their ends.
pub fn marks(labels: &[u16], arrows: &[Arrow], nodes: &[Node]) -> Vec<u8> {
    let (n, k) = (labels.len(), nodes.len());
    let numbers = check_scratch(n, nodes);
    let answer = call(&bytes::chart(labels, arrows), &bytes::rule(nodes), k * n + 3, numbers + 3);
    assert_eq!(answer.outcome, Outcome::ACCEPTED);
    assert_eq!(answer.marks[k * n..], [LENT_MARK; 3]);
    assert!(answer.scratch[..numbers].iter().all(|&number| number == 0));
    assert_eq!(answer.scratch[numbers..], [LENT_NUMBER; 3]);
    answer.marks[..k * n].to_vec()
}

/// On a stack that holds the deepest text, not optimized too: it is read by as many calls in one another as it has bytes.
pub fn on_a_large_stack(test: fn()) {
    let thread = std::thread::Builder::new().stack_size(16 << 20).spawn(test).expect("a thread");
    thread.join().unwrap_or_else(|why| std::panic::resume_unwind(why));
}
