//! Counting the minutes, quick or plain, gives the marks of check, refuses as it should, and leaves the tables as it
//! should.

use crate::common::{arrow, call, node, outcome, told, word, Answer, Told, LENT_MARK, LENT_NUMBER};
use bench::bytes::{self, Node};
use bench::exact::{self, made_exact};
use bench::peer::{self, Outcome};
use bench::{counted, drawn, families};

/// What the quick peer answers and leaves, after the plain one is found to answer and leave the same.
fn count(chart: &[u8], rule: &[u8], marks: usize, scratch: usize) -> Answer {
    let [quick, plain] = [peer::count, peer::plain_count].map(|count| {
        let (mut marks, mut scratch) = (vec![LENT_MARK; marks], vec![LENT_NUMBER; scratch]);
        let outcome = count(chart, rule, &mut marks, &mut scratch);
        Answer { outcome, marks, scratch }
    });
    assert_eq!(quick.outcome, plain.outcome);
    assert!(quick.marks == plain.marks && quick.scratch == plain.scratch);
    quick
}

/// Ends the test unless the marks are those of check and the tables, a little longer than asked for, are kept at their
/// ends.
fn judge(chart: &[u8], rule: &[u8], what: &str) {
    let (n, k) = (usize::from(word(chart, 5)), usize::from(word(rule, 5)));
    let counted = count(chart, rule, k * n + 3, 256 * n + 3);
    assert_eq!(counted.outcome, Outcome::ACCEPTED, "{what}");
    assert!(counted.marks == call(chart, rule, k * n + 3, 256 * n).marks, "{what}");
    let (cleared, kept) = counted.scratch.split_at(256 * n);
    assert!(cleared.iter().all(|&number| number == 0), "{what}");
    assert_eq!(kept, [LENT_NUMBER; 3], "{what}");
}

#[test]
fn drawn_charts_have_the_marks_of_check() {
    for seed in 0..1_000 {
        let near = counted::near(drawn::rule(seed));
        judge(&drawn::chart(seed), &made_exact(near.clone()), &format!("seed {seed}, exact"));
        judge(&drawn::chart(seed), &near, &format!("seed {seed}"));
    }
}

#[test]
fn hurried_charts_have_the_marks_of_check() {
    let mut accepted = 0;
    for seed in 0..1_000 {
        let (chart, rule) = (drawn::hurried(seed), counted::near(drawn::rule(seed)));
        if outcome(&chart, &rule) == (0, 0, 0) {
            judge(&chart, &rule, &format!("seed {seed}"));
            judge(&chart, &made_exact(rule), &format!("seed {seed}, exact"));
            accepted += 1;
        }
    }
    assert!(accepted > 700, "{accepted}");
}

/// A rule of every until over two labels, the bound being asked for at every minute.
#[test]
fn every_bound_has_the_marks_of_check() {
    for c in 0..=255 {
        let seed = 7 * u64::from(c);
        for (operation, kind) in [(5, 1), (5, 2), (5, 3), (6, 1), (6, 2), (6, 3)] {
            let nodes = [node(1, 0, c % 16, 0, 0), node(1, 0, c / 16, 0, 0), node(operation, kind, 0, 1, c)];
            let what = format!("seed {seed}, {operation} {kind}, {c}");
            judge(&drawn::chart(seed), &bytes::rule(&nodes), &what);
        }
    }
}

#[test]
fn inputs_have_the_marks_of_check() {
    for (chart, rule) in counted::rows() {
        judge(&counted::chart(chart).expect(chart), &counted::rule(&rule).expect(&rule), &format!("{chart} {rule}"));
    }
}

#[test]
fn exact_inputs_have_the_marks_of_check() {
    for row in exact::rows() {
        let chart = counted::chart(row.chart).or_else(|| families::chart(row.chart, 256, 2048)).expect(row.chart);
        judge(&chart, &counted::rule(&row.exact).expect(&row.exact), &format!("{} {}", row.chart, row.exact));
    }
}

fn short() -> Vec<u8> {
    bytes::chart(&[1, 2, 4], &[arrow(0, 1, 5, 10), arrow(1, 2, 0, 4), arrow(2, 0, 20, 65_535)])
}

const ALWAYS: Node = Node { operation: 0, kind: 0, a: 0, b: 0, c: 0 };

/// What is told, after what the call leaves is looked at.
fn refused(chart: &[u8], rule: &[u8], marks: usize, scratch: usize) -> Told {
    let answer = count(chart, rule, marks, scratch);
    assert!(answer.marks.iter().all(|&mark| mark == LENT_MARK));
    let (cleared, kept) = answer.scratch.split_at(if answer.outcome.number == 19 { scratch - 1 } else { 0 });
    assert!(cleared.iter().all(|&number| number == 0));
    assert!(kept.iter().all(|&number| number == LENT_NUMBER));
    told(answer.outcome)
}

#[test]
fn far_bounds() {
    let until = |kind, a, b, c| node(6, kind, a, b, c);
    let far =
        bytes::rule(&[ALWAYS, ALWAYS, until(1, 0, 1, 255), ALWAYS, until(2, 2, 3, 256), ALWAYS, until(1, 4, 5, 999)]);
    assert_eq!(refused(&short(), &far, 0, 0), (63, 4, 3));
    assert_eq!(refused(&[], &far, 0, 0), (1, 0, 1));
    // Before 63 come the form of every node and their uses, after it the tables.
    assert_eq!(refused(&short(), &bytes::rule(&[ALWAYS, ALWAYS, until(1, 0, 0, 256)]), 0, 0), (16, 0, 3));
    assert_eq!(refused(&short(), &bytes::rule(&[ALWAYS, ALWAYS, until(1, 0, 1, 256)]), 0, 0), (63, 2, 3));
    assert_eq!(refused(&short(), &bytes::rule(&[ALWAYS, ALWAYS, until(1, 0, 1, 255)]), 8, 0), (17, 0, 5));
}

#[test]
fn tables_and_loops() {
    let rule = bytes::rule(&[ALWAYS]);
    assert_eq!(refused(&short(), &rule, 2, 768), (17, 0, 5));
    // As many rows for a rule without untils.
    assert_eq!(refused(&short(), &rule, 3, 767), (18, 0, 5));
    let still = bytes::chart(&[0], &[arrow(0, 0, 0, 0)]);
    assert_eq!(refused(&still, &rule, 1, 255), (18, 0, 5));
    assert_eq!(refused(&still, &rule, 1, 257), (19, 0, 1));
}

/// The example of the paper's readings.
#[test]
fn marks_within_13() {
    let rule = bytes::rule(&[ALWAYS, node(1, 0, 2, 0, 0), node(6, 1, 0, 1, 13)]);
    let answer = count(&short(), &rule, 10, 769);
    assert_eq!(answer.outcome, Outcome::ACCEPTED);
    assert_eq!(answer.marks, [1, 1, 1, 0, 0, 1, 0, 1, 1, LENT_MARK]);
    assert_eq!(answer.scratch.iter().position(|&number| number != 0), Some(768));
}
