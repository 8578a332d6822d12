//! The judge of whole calls finds a change anywhere in the answer and the buffers.

use crate::make::{chart, l0_l1, run, short, true_l2, A, AT_MOST, E};
use oracle::{judge_show, show, Outcome, ShowCall, Written};

/// An answer to a call that lent marks of 7, scratch of 9 and output of 5.
#[derive(Clone)]
struct Answer {
    chart: Vec<u8>,
    rule: Vec<u8>,
    written: Written,
    marks: Vec<u8>,
    scratch: Vec<u32>,
    output: Vec<u8>,
}

impl Answer {
    /// The oracle's own, for node 2 and state 0.
    fn own(chart: Vec<u8>, rule: Vec<u8>, scratch: usize, output: usize) -> Answer {
        let (mut marks, mut scratch, mut output) = (vec![7; 12], vec![9; scratch], vec![5; output]);
        let written = show(&chart, &rule, &mut marks, &mut scratch, 2, 0, &mut output);
        Answer { chart, rule, written, marks, scratch, output }
    }

    fn judged(&self) -> Result<(), String> {
        let (scratch, output) = (vec![9; self.scratch.len()], vec![5; self.output.len()]);
        let (chart, rule) = (self.chart.as_slice(), self.rule.as_slice());
        let call = ShowCall { chart, rule, marks: &[7; 12], scratch: &scratch, node: 2, state: 0, output: &output };
        judge_show(&call, self.written, &self.marks, &self.scratch, &self.output)
    }

    fn changed(&self, change: impl FnOnce(&mut Answer)) -> Result<(), String> {
        let mut answer = self.clone();
        change(&mut answer);
        answer.judged()
    }
}

fn found(judged: Result<(), String>, what: &str) {
    let wrong = judged.expect_err(what);
    assert!(wrong.contains(what), "{wrong}");
}

/// Each part of the answer changed, whatever the outcome.
fn every_change_is_found(own: &Answer) {
    assert_eq!(own.judged(), Ok(()));
    found(own.changed(|to| to.written.outcome.number += 1), "answered");
    found(own.changed(|to| to.written.outcome.place += 1), "answered");
    found(own.changed(|to| to.written.outcome.entry += 1), "answered");
    found(own.changed(|to| to.written.written += 6), "answered");
    for i in 0..own.marks.len() {
        found(own.changed(|to| to.marks[i] ^= 1), "marks byte");
    }
    for i in 0..own.scratch.len() {
        found(own.changed(|to| to.scratch[i] ^= 1), "scratch number");
    }
    for i in own.written.written..own.output.len() {
        found(own.changed(|to| to.output[i] ^= 1), "output byte past the run");
    }
}

#[test]
fn changes_after_a_success() {
    let own = Answer::own(short(), true_l2(E, AT_MOST, 5), 780, 20);
    assert_eq!(own.written, Written { outcome: Outcome { number: 0, place: 0, entry: 0 }, written: 18 });
    every_change_is_found(&own);
    for i in 0..18 {
        assert!(own.changed(|to| to.output[i] ^= 1).is_err(), "{i}");
    }
    found(own.changed(|to| to.written.written = 0), "answered");
}

#[test]
fn changes_after_refusals() {
    let marked = true_l2(E, AT_MOST, 5);
    let looped = chart(&[0; 3], &[[0, 1, 0, 0], [1, 0, 0, 0], [2, 2, 1, 1]]);
    for (number, own) in [
        (1, Answer::own(vec![], marked.clone(), 780, 20)),
        (18, Answer::own(short(), marked.clone(), 11, 20)),
        (19, Answer::own(looped, marked.clone(), 20, 20)),
        (60, Answer::own(short(), true_l2(E, AT_MOST, 4), 780, 20)),
        (61, Answer::own(short(), marked.clone(), 770, 20)),
        (62, Answer::own(short(), marked, 780, 17)),
    ] {
        assert_eq!(own.written.outcome.number, number);
        every_change_is_found(&own);
    }
}

/// Another true run of the fewest steps is right; a true one of more steps isn't.
#[test]
fn the_run_is_free() {
    let own = Answer::own(short(), true_l2(E, AT_MOST, 40), 771, 36);
    let shown = |positions: &[(u16, u32)]| {
        let bytes = run(positions);
        own.changed(|to| {
            to.written.written = bytes.len();
            to.output = [bytes.as_slice(), &[5; 36][bytes.len()..]].concat();
        })
    };
    for duration in 5..=10 {
        assert_eq!(shown(&[(0, duration), (1, 3), (2, 0)]), Ok(()));
    }
    found(shown(&[(0, 11), (1, 3), (2, 0)]), "in no slot");
    found(shown(&[(0, 5), (1, 3), (2, 20), (0, 5), (1, 0), (2, 0)]), "answered");
    found(shown(&[(0, 5), (1, 3)]), "answered");
}

/// The run may also end in another state.
#[test]
fn the_end_is_free() {
    let chart =
        chart(&[1, 1, 0, 2], &[[0, 1, 9, 9], [0, 2, 1, 1], [0, 3, 9, 9], [1, 1, 1, 1], [2, 2, 1, 1], [3, 3, 1, 1]]);
    let own = Answer::own(chart, l0_l1(A, AT_MOST, 5), 1_028, 12);
    for right in [[(0, 9), (1, 0)], [(0, 1), (2, 0)], [(0, 9), (3, 0)]] {
        assert_eq!(own.changed(|to| to.output = run(&right)), Ok(()));
    }
}
