//! Counting the minutes one by one: an until is settled by a row of states for each number of minutes left, up to its
//! bound. For E a row has the states that make it, for A those that may fail it.

use super::chart::{listed, Chart};
use super::minutes::Minutes;
use super::rounds::Rounds;
use super::rows::Rows;
use super::rule::{Bound, Node, Rule};
use super::settle::{fill, plain_node, row};
use super::slots::{After, Late, Slot, Within};
use super::{read, refusal, Outcome};

/// Bounds go to 255.
pub const ROWS: usize = 256;

/// Marks every node of the rule at every state of the chart: the quick peer.
pub fn count(chart: &[u8], rule: &[u8], marks: &mut [u8], scratch: &mut [u32]) -> Outcome {
    let accepted = accept(chart, rule, marks, scratch, |chart, rule, marks, scratch| {
        Counter { labels: &chart.labels, rows: Minutes::new(chart, scratch) }.settle(rule, marks);
    });
    accepted.err().unwrap_or(Outcome::ACCEPTED)
}

/// The same call: the plain peer.
pub fn plain_count(bytes: &[u8], rule: &[u8], marks: &mut [u8], scratch: &mut [u32]) -> Outcome {
    let accepted = accept(bytes, rule, marks, scratch, |chart, rule, marks, scratch| {
        let n = chart.labels.len();
        Counter { labels: &chart.labels, rows: Rounds::new(n, listed(n, bytes), scratch) }.settle(rule, marks);
    });
    accepted.err().unwrap_or(Outcome::ACCEPTED)
}

fn accept(
    chart: &[u8],
    rule: &[u8],
    marks: &mut [u8],
    scratch: &mut [u32],
    settle: impl FnOnce(&Chart, &Rule, &mut [u8], &mut [u32]),
) -> Result<(), Outcome> {
    let (chart, rule) = read(chart, rule)?;
    refuse_bounds(&rule)?;
    let n = chart.labels.len();
    let marks = marks.get_mut(..rule.nodes.len() * n).ok_or(refusal(17, 0))?;
    let scratch = scratch.get_mut(..ROWS * n).ok_or(refusal(18, 0))?;
    let locked = chart.refuse_timelock();
    if locked.is_ok() {
        settle(&chart, &rule, marks, scratch);
    }
    scratch.fill(0);
    locked
}

/// Refusal 63: a bound that has no row.
fn refuse_bounds(rule: &Rule) -> Result<(), Outcome> {
    let far = |node: &Node| match *node {
        Node::SomeRun(_, _, bound) | Node::AllRuns(_, _, bound) => minutes(bound) >= ROWS,
        _ => false,
    };
    rule.nodes.iter().position(far).map_or(Ok(()), |node| Err(refusal(63, node)))
}

fn minutes(bound: Bound) -> usize {
    match bound {
        Bound::AtMost(c) | Bound::AtLeast(c) | Bound::Exactly(c) => c as usize,
    }
}

pub struct Counter<'a, R> {
    pub labels: &'a [u16],
    pub rows: R,
}

impl<R: Rows> Counter<'_, R> {
    /// Operands are lower than their node, so the nodes are settled in order.
    fn settle(&mut self, rule: &Rule, marks: &mut [u8]) {
        let n = self.labels.len();
        for (t, node) in rule.nodes.iter().enumerate() {
            let (before, rest) = marks.split_at_mut(t * n);
            let marks = &mut rest[..n];
            match *node {
                Node::SomeRun(a, b, bound) => self.some_marks(row(before, n, a), row(before, n, b), bound, marks),
                Node::AllRuns(a, b, bound) => self.all_marks(row(before, n, a), row(before, n, b), bound, marks),
                plain => plain_node(self.labels, plain, before, marks),
            }
        }
    }

    pub fn some_marks(&mut self, p: &[u8], q: &[u8], bound: Bound, marks: &mut [u8]) {
        self.some_run(p, q, bound);
        fill(marks, |s| self.rows.has(minutes(bound), s));
    }

    pub fn all_marks(&mut self, p: &[u8], q: &[u8], bound: Bound, marks: &mut [u8]) {
        self.failing_run(p, q, bound);
        fill(marks, |s| !self.rows.has(minutes(bound), s));
    }

    /// Rows of the states that make it: Q, with P all the way there.
    fn some_run(&mut self, p: &[u8], q: &[u8], bound: Bound) {
        self.rows.choose(|s| q[s] == 1, |s| p[s] == 1);
        match bound {
            Bound::AtMost(c) => self.fill::<Within>(0, c),
            Bound::AtLeast(c) => {
                self.rows.reach();
                // While minutes are left Q is not enough.
                self.rows.choose(|_| false, |s| p[s] == 1);
                self.fill::<After>(1, c);
            }
            Bound::Exactly(c) => {
                self.fill::<Within>(0, 0);
                self.rows.choose(|_| false, |s| p[s] == 1);
                self.fill::<Within>(1, c);
            }
        }
    }

    /// Rows of the states that may fail it: by waiting, with P and without Q, until it is late, for ever, or to a state
    /// with neither.
    fn failing_run(&mut self, p: &[u8], q: &[u8], bound: Bound) {
        let neither = |s: usize| p[s] | q[s] == 0;
        let waits = |s: usize| p[s] > q[s];
        match bound {
            Bound::AtMost(c) => {
                self.rows.choose(neither, waits);
                self.fill::<Late>(0, c);
            }
            Bound::AtLeast(c) => {
                self.rows.choose(neither, waits);
                self.rows.reach_or_wait();
                // While minutes are left Q doesn't end it, and P is asked for.
                self.rows.choose(|s| p[s] == 0, |s| p[s] == 1);
                self.fill::<After>(1, c);
            }
            Bound::Exactly(c) => {
                self.rows.choose(neither, waits);
                self.fill::<Late>(0, 0);
                self.rows.choose(|s| p[s] == 0, |s| p[s] == 1);
                self.fill::<Late>(1, c);
            }
        }
    }

    fn fill<S: Slot>(&mut self, first: usize, c: u32) {
        (first..=c as usize).for_each(|left| self.rows.fill::<S>(left));
    }
}
