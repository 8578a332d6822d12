//! What was met: numbers and entries per call, marks per form of a node, kinds of rule, what the checks of exact bounds, the
//! shows, counts, reads and writes met, and which loops the accepted charts had.

use crate::bytes::rule;
use crate::calls::compare::{Answer, Kind, Part};
use crate::calls::loops_met::LoopsMet;
use crate::calls::marks_met::MarksMet;
use crate::calls::met::Met;
use crate::calls::numbers_met::{NumbersMet, NUMBERED};
use crate::calls::outcome::Outcome;
use crate::calls::short_met::ShortMet;
use crate::calls::{count_met, exact_met, read_met, show_met, write_met};
use crate::cases::case::{Case, CALLS, CHECK, COUNT, READ, ROW, SHOW, WRITE};

const KINDS: [Kind; 4] = [Kind::AllRuns, Kind::SomeRun, Kind::Both, Kind::Neither];

/// From this many cases on, the random ones have to meet every number by themselves; so do the typed and written rules,
/// which are counted apart.
const ENOUGH: u64 = 200_000;

/// One random case in so many, at least, has to be a show, and one a count.
const SHARE: u64 = 20;

/// Where a case comes from.
#[derive(Clone, Copy, PartialEq, Eq)]
pub enum Source {
    Named,
    Random,
    /// A rule typed as text, or written back.
    Typed,
}

pub struct Summary {
    cases: [u64; CALLS.len()],
    random: u64,
    typed: u64,
    pub numbers: NumbersMet,
    marks: MarksMet,
    kinds: [u64; 4],
    parts: [u64; 2],
    /// Of the random ones; the checks are those of exact bounds.
    checks: Met,
    shows: Met,
    counts: Met,
    reads: Met,
    writes: Met,
    loops: LoopsMet,
    pub short: ShortMet,
}

impl Summary {
    pub fn new() -> Summary {
        Summary {
            cases: [0; CALLS.len()],
            random: 0,
            typed: 0,
            numbers: NumbersMet::new(),
            marks: MarksMet::new(),
            kinds: [0; 4],
            parts: [0; 2],
            checks: Met::of(exact_met::all()),
            shows: Met::of(show_met::KINDS),
            counts: Met::of(count_met::all()),
            reads: Met::of(read_met::all()),
            writes: Met::of(write_met::all()),
            loops: LoopsMet::new(),
            short: ShortMet::default(),
        }
    }

    pub fn total(&self) -> u64 {
        self.cases.iter().sum::<u64>() + self.short.total()
    }

    pub fn add(&mut self, case: &Case, answer: &Answer, source: Source) {
        let (call, random) = (case.call(), source != Source::Named);
        self.cases[call] += 1;
        self.random += u64::from(source == Source::Random);
        self.typed += u64::from(source == Source::Typed);
        if let Some(outcome) = answer.outcome() {
            self.numbers.add(call, outcome, random);
            if random && outcome == Outcome::ACCEPTED {
                self.loops.add(case);
            }
        }
        self.add_marks(case, answer);
        match (case, answer) {
            (_, Answer::Kind { outcome: Outcome::ACCEPTED, kind }) => self.kinds[*kind as usize] += 1,
            (_, Answer::Row(part)) => self.parts[(*part != Part::Empty) as usize] += 1,
            (Case::Check { .. }, _) if random => self.checks.add(&exact_met::kinds(case, answer)),
            (Case::Show { .. }, _) if random => self.shows.add(&show_met::kinds(case, answer)),
            (Case::Count { .. }, _) if random => self.counts.add(&count_met::kinds(case, answer)),
            (Case::Read { .. }, _) if random => self.reads.add(&read_met::kinds(case, answer)),
            (Case::Write { .. }, _) if random => self.writes.add(&write_met::kinds(case, answer)),
            _ => {}
        }
    }

    fn add_marks(&mut self, case: &Case, answer: &Answer) {
        let (Case::Check { chart, rule, .. } | Case::Count { chart, rule, .. }) = case else {
            return;
        };
        let (Answer::Check { outcome: Outcome::ACCEPTED, marks, .. }
        | Answer::Count { outcome: Outcome::ACCEPTED, marks, .. }) = answer
        else {
            return;
        };
        // A wrong acceptance may come with bytes too short for a count of states.
        if let Some(&[high, low]) = chart.get(5..7) {
            self.marks.add(case.call(), &rule::nodes(rule), marks, u16::from_be_bytes([high, low]).into());
        }
    }

    /// Whether there were enough random cases of a call to meet all there is by themselves.
    fn is_strict(&self, call: usize) -> bool {
        let random = if matches!(call, READ | WRITE) { self.typed } else { self.random };
        random >= ENOUGH
    }

    /// Each number with an entry that a call never met, each form whose marks were all alike, what no check of an exact
    /// bound, show, count, read or write met, loops that no accepted chart had, and what the short texts never came to.
    pub fn missing(&self) -> Vec<String> {
        let mut missing = self.numbers.missing(|call| self.is_strict(call));
        for (kind, _) in KINDS.iter().zip(self.kinds).filter(|(_, met)| *met == 0) {
            missing.push(format!("kind {kind:?}"));
        }
        missing.extend(self.marks.missing());
        if self.is_strict(SHOW) {
            missing.extend(self.loops.missing());
            missing.extend(self.rare());
        }
        for (call, met) in self.met() {
            let strict = self.is_strict(call);
            missing.extend(met.missing().filter(|_| strict).map(|kind| format!("{}: {kind}", CALLS[call])));
        }
        missing.extend(self.short.missing());
        missing
    }

    fn met(&self) -> [(usize, &Met); 5] {
        let (checks, shows, counts) = ((CHECK, &self.checks), (SHOW, &self.shows), (COUNT, &self.counts));
        [checks, shows, counts, (READ, &self.reads), (WRITE, &self.writes)]
    }

    /// What too few random cases are.
    fn rare(&self) -> Vec<String> {
        let rare = [SHOW, COUNT].into_iter().filter(|&call| self.numbers.random(call) * SHARE < self.random);
        rare.map(|call| format!("a {} in {SHARE} random cases", CALLS[call])).collect()
    }

    pub fn text(&self) -> String {
        let mut text = self.numbers.text() + &self.marks.text();
        for call in NUMBERED {
            let (accepted, all) = (self.numbers.accepted(call), self.cases[call]);
            text += &format!("{:>12}  {all} cases, {:.1} % accepted\n", CALLS[call], share(accepted, all));
        }
        let [empty, found] = self.parts;
        text += &format!("{:>12}  {} cases, {found} parts found, {empty} empty\n", "row", self.cases[ROW]);
        for (kind, met) in KINDS.iter().zip(self.kinds) {
            text += &format!("{:>12}  met {met} times\n", format!("{kind:?}"));
        }
        let (shows, counts, loops) = (self.shows.text(), self.counts.text(), self.loops.text());
        text += &format!("checks of exact bounds met\n{}", self.checks.text());
        text += &format!("shows met\n{shows}counts met\n{counts}accepted random charts that have\n{loops}");
        text + &format!("reads met\n{}writes met\n{}{}", self.reads.text(), self.writes.text(), self.short.text())
    }
}

fn share(part: u64, all: u64) -> f64 {
    if all == 0 {
        0.0
    } else {
        100.0 * part as f64 / all as f64
    }
}

#[cfg(test)]
mod tests {
    use super::{Source, Summary};
    use crate::calls::compare::oracle;
    use crate::named::{charts::List, texts, typed_limits, written};

    #[test]
    fn a_number_is_missing_until_it_is_met() {
        let mut summary = Summary::new();
        let missing = |summary: &Summary, what: &str| summary.missing().iter().any(|missing| missing == what);
        let numbers =
            [(0, 0, "read"), (64, 3, "read"), (65, 3, "read"), (66, 5, "read"), (0, 0, "write"), (66, 5, "write")];
        let numbers = numbers.map(|(number, entry, call)| format!("number {number} with entry {entry} of {call}"));
        assert!(numbers.iter().all(|number| missing(&summary, number)));
        let mut list = List::new();
        texts::all(&mut list);
        typed_limits::all(&mut list);
        written::all(&mut list);
        list.iter().for_each(|test| summary.add(&test.case, &oracle::run(&test.case), Source::Named));
        assert!(!numbers.iter().any(|number| missing(&summary, number)));
        assert!(missing(&summary, "number 10 with entry 3 of write") && missing(&summary, "accepted short text"));
    }
}
