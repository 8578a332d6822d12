//! Runs a case on both programs and says whether the answers agree.

use std::panic::{catch_unwind, AssertUnwindSafe};

use crate::calls::outcome::Outcome;
use crate::calls::told::Told;
use crate::cases::case::{Case, Lent, Table};

#[derive(Clone, Copy, Debug, PartialEq, Eq)]
pub enum Kind {
    AllRuns,
    SomeRun,
    Both,
    Neither,
}

/// Where a part lies in the chosen table; an empty part may lie anywhere in it.
#[derive(Clone, Debug, PartialEq, Eq)]
pub enum Part {
    Empty,
    At { offset: usize, bytes: Vec<u8> },
    Elsewhere { bytes: Vec<u8> },
}

#[derive(Clone, Debug, PartialEq, Eq)]
pub enum Answer {
    Check {
        outcome: Outcome,
        marks: Vec<u8>,
        scratch: Vec<u32>,
        arrows: Vec<[u64; 4]>,
    },
    Count {
        outcome: Outcome,
        marks: Vec<u8>,
        scratch: Vec<u32>,
    },
    Kind {
        outcome: Outcome,
        kind: Kind,
    },
    Map {
        outcome: Outcome,
    },
    Row(Part),
    Show {
        outcome: Outcome,
        written: usize,
        marks: Vec<u8>,
        scratch: Vec<u32>,
        output: Vec<u8>,
    },
    /// Of read and write. The bytes behind the output, which are not lent, stand at its end.
    Turned {
        outcome: Outcome,
        written: usize,
        output: Vec<u8>,
    },
    Stopped,
}

impl Answer {
    /// A row has none.
    pub fn outcome(&self) -> Option<Outcome> {
        match *self {
            Answer::Check { outcome, .. }
            | Answer::Count { outcome, .. }
            | Answer::Kind { outcome, .. }
            | Answer::Map { outcome }
            | Answer::Show { outcome, .. }
            | Answer::Turned { outcome, .. } => Some(outcome),
            Answer::Row(_) | Answer::Stopped => None,
        }
    }

    /// What an accepted text or rule was turned into.
    pub fn turned(&self) -> Option<&[u8]> {
        match self {
            Answer::Turned { outcome: Outcome::ACCEPTED, written, output } => output.get(..*written),
            _ => None,
        }
    }

    /// Which of several runs a show writes is free, so its output is not looked at here; all else has to be equal.
    fn agrees(&self, other: &Answer) -> bool {
        match (self, other) {
            (
                Answer::Show { outcome, written, marks, scratch, .. },
                Answer::Show { outcome: o, written: w, marks: m, scratch: s, .. },
            ) => (outcome, written, marks, scratch) == (o, w, m, s),
            _ => self == other,
        }
    }
}

/// Judges by address, since a copy would have the same content.
fn part_of(table: &[u8], part: &[u8]) -> Part {
    let start = table.as_ptr() as usize;
    let at = part.as_ptr() as usize;
    let bytes = part.to_vec();
    if at < start || at - start > table.len() || part.len() > table.len() - (at - start) {
        return Part::Elsewhere { bytes };
    }
    if part.is_empty() {
        return Part::Empty;
    }
    Part::At { offset: at - start, bytes }
}

/// Bytes behind the output of a text or a rule.
pub const BEHIND: usize = 8;

/// What a text or a rule is to be turned into, as lent and as it is left, with the bytes behind it.
pub fn with_behind(output: &Lent) -> Vec<u8> {
    Lent::new(output.length + BEHIND, output.fill).bytes()
}

fn turned(output: &Lent, call: impl FnOnce(&mut [u8]) -> (Outcome, usize)) -> Answer {
    let mut bytes = with_behind(output);
    let (outcome, written) = call(&mut bytes[..output.length]);
    Answer::Turned { outcome, written, output: bytes }
}

/// The same calls of either program, each with its own types.
macro_rules! program {
    ($name:ident) => {
        pub mod $name {
            use super::{part_of, turned, Answer, Case, Kind, Table, Told};
            use ::$name as program;

            fn kind_of(rule: &[u8]) -> Answer {
                let answer = program::kind_of_rule(rule);
                let kind = match answer.kind {
                    program::Kind::AllRuns => Kind::AllRuns,
                    program::Kind::SomeRun => Kind::SomeRun,
                    program::Kind::Both => Kind::Both,
                    program::Kind::Neither => Kind::Neither,
                };
                Answer::Kind { outcome: answer.outcome.into(), kind }
            }

            fn arrow(chart: &[u8], number: usize) -> Option<[u64; 4]> {
                program::arrow(chart, number).map(|a| [a.start as u64, a.end as u64, a.fewest as u64, a.most as u64])
            }

            /// The chart's arrows as a reader hands them out, until it is finished, and what it still finds later.
            fn arrows(chart: &[u8]) -> Vec<[u64; 4]> {
                let mut read: Vec<_> = (0..).map_while(|i| arrow(chart, i)).collect();
                let count = read.len();
                read.extend([count, count + 1, usize::MAX].into_iter().filter_map(|i| arrow(chart, i)));
                read
            }

            fn row(tables: (&[u8], &[u8]), choice: Table, n: usize, t: usize) -> Answer {
                let (overview, detail) = tables;
                let (table, choice) = match choice {
                    Table::Overview => (overview, program::Choice::Overview),
                    Table::Detail => (detail, program::Choice::Detail),
                };
                Answer::Row(part_of(table, program::row(overview, detail, choice, n, t)))
            }

            pub fn run(case: &Case) -> Answer {
                match case {
                    Case::Check { chart, rule, marks, scratch } => {
                        let (mut marks, mut scratch) = (marks.bytes(), scratch.numbers());
                        let outcome = program::check(chart, rule, &mut marks, &mut scratch).into();
                        Answer::Check { outcome, marks, scratch, arrows: arrows(chart) }
                    }
                    Case::Count { chart, rule, marks, scratch } => {
                        let (mut marks, mut scratch) = (marks.bytes(), scratch.numbers());
                        let outcome = program::count(chart, rule, &mut marks, &mut scratch).into();
                        Answer::Count { outcome, marks, scratch }
                    }
                    Case::Kind { rule } => kind_of(rule),
                    Case::Map { detail, overview, map } => {
                        Answer::Map { outcome: program::map_check(detail, overview, map).into() }
                    }
                    Case::Row { overview, detail, choice, n, t } => row((overview, detail), *choice, *n, *t),
                    Case::Show { chart, rule, marks, scratch, node, state, output } => {
                        let (mut marks, mut scratch, mut output) = (marks.bytes(), scratch.numbers(), output.bytes());
                        let answer = program::show(chart, rule, &mut marks, &mut scratch, *node, *state, &mut output);
                        let (outcome, written) = answer.told();
                        Answer::Show { outcome, written, marks, scratch, output }
                    }
                    Case::Read { text, output } => turned(output, |lent| program::read_rule(text, lent).told()),
                    Case::Write { rule, output } => turned(output, |lent| program::write_rule(rule, lent).told()),
                }
            }
        }
    };
}

program!(doilystrand);
program!(oracle);

/// The answers of the library and of the oracle.
pub struct Both {
    pub library: Answer,
    pub oracle: Answer,
}

/// A panic is an answer too, and a wrong one. A crash or a call without end is not caught: `last` tells its case.
fn guarded(run: fn(&Case) -> Answer, case: &Case) -> Answer {
    catch_unwind(AssertUnwindSafe(|| run(case))).unwrap_or(Answer::Stopped)
}

pub fn both(case: &Case) -> Both {
    Both { library: guarded(doilystrand::run, case), oracle: guarded(oracle::run, case) }
}

impl Both {
    pub fn agree(&self) -> bool {
        let wrong = |x: &Answer| matches!(x, Answer::Stopped | Answer::Row(Part::Elsewhere { .. }));
        !wrong(&self.library) && self.library.agrees(&self.oracle)
    }
}
