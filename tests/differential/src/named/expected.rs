//! Named cases with the answer that the paper gives: both programs are held to it.

use crate::bytes::chart::{arrow, framed, Chart, NO_END};
use crate::bytes::rule::{self, plain, Node, TRUE};
use crate::calls::compare::{Answer, Kind, Part};
use crate::calls::outcome::Outcome;
use crate::cases::case::{Case, Lent, Table};
use crate::cases::replay::hex;

#[derive(Debug)]
pub enum Expected {
    /// Number, place and entry.
    Outcome(u32, u32, u32),
    /// Accepted, with these marks for the last node, states in order.
    Last(&'static str),
    /// Accepted, with these marks for all nodes.
    Marks(&'static str),
    Kind(Kind),
    /// Where the part begins and how long it is.
    Part(usize, usize),
    EmptyPart,
    /// Accepted, with this run in hex.
    Run(&'static str),
    /// Accepted, with a run of so many steps.
    Steps(usize),
    /// Accepted, with this rule in hex.
    Rule(&'static str),
    /// Accepted, with this rule.
    Nodes(Vec<Node>),
    /// Accepted, with this text.
    Text(String),
}

pub struct Named {
    pub name: String,
    pub case: Case,
    pub expected: Expected,
}

const FILL: u64 = 0x0D15_7A7C;

fn digits(marks: &[u8]) -> String {
    marks.iter().map(|mark| format!("{mark}")).collect()
}

impl Named {
    pub fn met(&self, answer: &Answer) -> bool {
        match (&self.expected, answer) {
            (
                Expected::Last(text),
                Answer::Check { outcome: Outcome::ACCEPTED, marks, .. }
                | Answer::Count { outcome: Outcome::ACCEPTED, marks, .. },
            ) => {
                let Some(first) = self.last_row(text.len()) else {
                    return false;
                };
                marks.get(first..first + text.len()).is_some_and(|row| digits(row) == *text)
            }
            (
                Expected::Marks(text),
                Answer::Check { outcome: Outcome::ACCEPTED, marks, .. }
                | Answer::Count { outcome: Outcome::ACCEPTED, marks, .. },
            ) => marks.get(..text.len()).is_some_and(|all| digits(all) == *text),
            (Expected::Kind(wanted), Answer::Kind { outcome: Outcome::ACCEPTED, kind }) => kind == wanted,
            (Expected::EmptyPart, Answer::Row(part)) => *part == Part::Empty,
            (Expected::Part(from, length), Answer::Row(Part::At { offset, bytes })) => {
                offset == from && bytes.len() == *length
            }
            (Expected::Run(text), Answer::Show { outcome: Outcome::ACCEPTED, written, output, .. }) => {
                output.get(..*written).is_some_and(|run| hex(run) == *text)
            }
            (Expected::Steps(steps), Answer::Show { outcome: Outcome::ACCEPTED, written, .. }) => {
                *written == 6 * (steps + 1)
            }
            (Expected::Rule(text), Answer::Turned { .. }) => answer.turned().is_some_and(|rule| hex(rule) == *text),
            (Expected::Nodes(nodes), Answer::Turned { .. }) => answer.turned() == Some(&rule::bytes(nodes)),
            (Expected::Text(text), Answer::Turned { .. }) => answer.turned() == Some(text.as_bytes()),
            (&Expected::Outcome(number, place, entry), other) => {
                other.outcome() == Some(Outcome { number, place, entry })
            }
            _ => false,
        }
    }

    /// Where the last node's marks begin.
    fn last_row(&self, n: usize) -> Option<usize> {
        match &self.case {
            Case::Check { rule, .. } | Case::Count { rule, .. } => Some((rule.len() - 7) / 8 * n - n),
            _ => None,
        }
    }
}

impl Expected {
    /// What a call answers that goes on where another one accepts.
    pub fn then(self, later: Expected) -> Expected {
        match self {
            Expected::Outcome(0, ..) => later,
            refused => refused,
        }
    }
}

/// Accepted where the number is 0; else the paper of this entry is wrong.
pub fn accepted_or(number: u32, place: u32, entry: u32) -> Expected {
    match number {
        0 => Expected::Outcome(0, 0, 0),
        _ => Expected::Outcome(number, place, entry),
    }
}

pub fn check(chart: Vec<u8>, rule: Vec<u8>, marks: usize, scratch: usize) -> Case {
    Case::Check { chart, rule, marks: Lent::new(marks, FILL), scratch: Lent::new(scratch, FILL + 1) }
}

/// A check with buffers that are exactly long enough.
pub fn exact(chart: &Chart, nodes: &[Node]) -> Case {
    let n = chart.states();
    check(chart.bytes(), rule::bytes(nodes), n * nodes.len(), rule::check_scratch(nodes, n))
}

pub fn count(chart: Vec<u8>, rule: Vec<u8>, marks: usize, scratch: usize) -> Case {
    Case::Count { chart, rule, marks: Lent::new(marks, FILL), scratch: Lent::new(scratch, FILL + 1) }
}

/// A count with buffers that are exactly long enough.
pub fn exact_count(chart: &Chart, nodes: &[Node]) -> Case {
    let n = chart.states();
    count(chart.bytes(), rule::bytes(nodes), n * nodes.len(), 256 * n)
}

/// A show of chart and rule, given the lengths of marks and scratch, node and state, and the length of the output.
pub fn show(bytes: (Vec<u8>, Vec<u8>), marks: usize, scratch: usize, at: [usize; 2], output: usize) -> Case {
    let (marks, scratch, output) = (Lent::new(marks, FILL), Lent::new(scratch, FILL + 1), Lent::new(output, FILL + 2));
    let ((chart, rule), [node, state]) = (bytes, at);
    Case::Show { chart, rule, marks, scratch, node, state, output }
}

/// A text to be read, or a rule to be written, into so many bytes.
pub fn read(text: impl AsRef<[u8]>, output: usize) -> Case {
    Case::Read { text: text.as_ref().to_vec(), output: Lent::new(output, FILL) }
}

pub fn write(rule: Vec<u8>, output: usize) -> Case {
    Case::Write { rule, output: Lent::new(output, FILL) }
}

pub fn map(detail: Vec<u8>, overview: Vec<u8>, map: Vec<u8>) -> Case {
    Case::Map { detail, overview, map }
}

pub fn row(overview: &[u8], detail: &[u8], choice: Table, n: usize, t: usize) -> Case {
    Case::Row { overview: overview.to_vec(), detail: detail.to_vec(), choice, n, t }
}

pub fn add(list: &mut Vec<Named>, name: &str, case: Case, expected: Expected) {
    list.push(Named { name: name.to_string(), case, expected });
}

pub fn short() -> Chart {
    let arrows = vec![arrow(0, 1, 5, 10), arrow(1, 2, 0, 4), arrow(2, 0, 20, NO_END)];
    Chart { labels: vec![1, 2, 4], arrows }
}

pub fn undo() -> Chart {
    let mut chart = short();
    chart.arrows.push(arrow(1, 0, 1, 1));
    chart
}

pub fn one() -> Chart {
    Chart { labels: vec![0], arrows: vec![arrow(0, 0, 1, 1)] }
}

/// A chart of n states, each with an arrow to itself, and m arrows in all.
pub fn loops(n: usize, m: usize) -> Chart {
    let arrows = (0..m).map(|j| arrow(j % n.max(1), j % n.max(1), 1, 1)).collect();
    Chart { labels: vec![0; n], arrows }
}

pub fn just_true() -> Vec<Node> {
    vec![plain(TRUE, 0, 0)]
}

pub fn identity(n: usize) -> Vec<u8> {
    map_of(&(0..n as u16).collect::<Vec<_>>())
}

pub fn map_of(entries: &[u16]) -> Vec<u8> {
    let mut words = vec![entries.len() as u16];
    words.extend(entries);
    framed(&words)
}
