//! What the paper says of every answer, whatever the case: both programs are held to it.

use crate::bytes::rule;
use crate::calls::compare::{Answer, Kind};
use crate::calls::outcome::Outcome;
use crate::calls::text_promises;
use crate::cases::case::{Case, Lent};

fn word(bytes: &[u8], at: usize) -> usize {
    match bytes.get(at..at + 2) {
        Some(two) => u16::from_be_bytes([two[0], two[1]]) as usize,
        None => 0,
    }
}

/// The marks: 0 or 1 in those that were written, the later bytes kept.
fn marks_kept(written: usize, lent: &[u8], marks: &[u8]) -> bool {
    let fits = marks.len() == lent.len() && written <= marks.len();
    fits && marks[..written].iter().all(|&mark| mark <= 1) && marks[written..] == lent[written..]
}

/// The scratch: its first numbers 0, the rest as lent.
fn scratch_kept(cleared: usize, lent: &[u32], scratch: &[u32]) -> bool {
    let fits = scratch.len() == lent.len() && cleared <= scratch.len();
    fits && scratch[..cleared].iter().all(|&x| x == 0) && scratch[cleared..] == lent[cleared..]
}

/// The output of a show: a run from the state, whose last duration is 0, the later bytes kept; as lent on a refusal.
fn output_kept(number: u32, state: usize, written: usize, lent: &[u8], output: &[u8]) -> bool {
    if output.len() != lent.len() || written > output.len() || output[written..] != lent[written..] {
        return false;
    }
    if number != 0 {
        return written == 0;
    }
    let whole = written > 0 && written % 6 == 0;
    whole && word(output, 0) == state && output[written - 4..written] == [0; 4]
}

/// How many marks check writes and how many numbers of scratch it clears.
fn left_by_check(number: u32, chart: &[u8], rule: &[u8]) -> (usize, usize) {
    let (n, k) = (word(chart, 5), word(rule, 5));
    let numbers = rule::check_scratch(&rule::nodes(rule), n);
    match number {
        0 => (k * n, numbers),
        19 => (0, numbers),
        _ => (0, 0),
    }
}

/// The same of count.
fn left_by_count(number: u32, chart: &[u8], rule: &[u8]) -> (usize, usize) {
    let (n, k) = (word(chart, 5), word(rule, 5));
    match number {
        0 => (k * n, 256 * n),
        19 => (0, 256 * n),
        _ => (0, 0),
    }
}

/// The lowest node whose bound is above 255; only bounds have a c.
fn lowest_above(rule: &[u8]) -> Option<u32> {
    let mut bounds = rule.get(7..)?.chunks_exact(8).map(|node| word(node, 6));
    bounds.position(|c| c > 255).map(|node| node as u32)
}

/// Past 16 a bound above 255 is told with its node, and nothing else is.
fn bound_told(outcome: Outcome, rule: &[u8]) -> bool {
    match outcome.number {
        63 => lowest_above(rule) == Some(outcome.place),
        0 | 17..=19 => lowest_above(rule).is_none(),
        _ => true,
    }
}

/// The same of show: past check's own refusals its marks stand.
fn left_by_show(number: u32, chart: &[u8], rule: &[u8]) -> (usize, usize) {
    let (marks, numbers) = left_by_check(0, chart, rule);
    match number {
        0 | 62 => (marks, 257 * word(chart, 5)),
        60 | 61 => (marks, numbers),
        _ => left_by_check(number, chart, rule),
    }
}

/// Marks and scratch, as lent and after a call that writes so many marks and clears so many numbers.
fn buffers(left: (usize, usize), marks: (&Lent, &[u8]), scratch: (&Lent, &[u32])) -> Option<&'static str> {
    if !marks_kept(left.0, &marks.0.bytes(), marks.1) {
        return Some("marks not kept or not 0 and 1");
    }
    (!scratch_kept(left.1, &scratch.0.numbers(), scratch.1)).then_some("scratch not kept or not 0")
}

/// What is broken, if anything is.
pub fn broken(case: &Case, answer: &Answer) -> Option<&'static str> {
    if answer.outcome().is_some_and(|outcome| outcome.number == 0 && outcome != Outcome::ACCEPTED) {
        return Some("success has a place or an entry");
    }
    match (case, answer) {
        (Case::Check { chart, rule, marks, scratch }, Answer::Check { outcome, marks: m, scratch: s, .. }) => {
            buffers(left_by_check(outcome.number, chart, rule), (marks, m), (scratch, s))
        }
        (Case::Count { chart, rule, marks, scratch }, Answer::Count { outcome, marks: m, scratch: s }) => {
            let told = bound_told(*outcome, rule);
            buffers(left_by_count(outcome.number, chart, rule), (marks, m), (scratch, s))
                .or((!told).then_some("a bound above 255 not told, or not its node"))
        }
        (
            Case::Show { chart, rule, marks, scratch, state, output, .. },
            Answer::Show { outcome, written, marks: m, scratch: s, output: o },
        ) => {
            let number = outcome.number;
            if number >= 60 && outcome.place != 0 {
                return Some("60 to 62 have a place");
            }
            let run = output_kept(number, *state, *written, &output.bytes(), o);
            buffers(left_by_show(number, chart, rule), (marks, m), (scratch, s))
                .or((!run).then_some("no run from the state, or output not kept"))
        }
        (_, Answer::Kind { outcome, kind }) => {
            (outcome.number != 0 && *kind != Kind::Neither).then_some("a refused rule has a kind")
        }
        _ => text_promises::broken(case, answer),
    }
}
