//! The marks of each node from those of its operands. Exact bounds are counted to, a minute after the other.

use super::chart::Chart;
use super::count::Counter;
use super::longest::{most, Longest, NONE, UNBOUNDED};
use super::minutes::Minutes;
use super::rule::{Bound, Node, Rule};
use super::shortest::{Shortest, FAR};

pub struct Settler<'a> {
    chart: &'a Chart,
    shortest: Shortest,
    longest: Longest,
    bad: Vec<bool>,
    /// Where some bound is exact.
    counter: Option<Counter<'a, Minutes<'a>>>,
}

/// Row t of the rows settled so far.
pub fn row(rows: &[u8], n: usize, t: usize) -> &[u8] {
    &rows[t * n..(t + 1) * n]
}

impl<'a> Settler<'a> {
    /// The numbers are for the rows of exact bounds, if there are some.
    pub fn new(chart: &'a Chart, rule: &Rule, numbers: &'a mut [u32]) -> Settler<'a> {
        let n = chart.labels.len();
        let counter = rule.is_exact().then(|| Counter { labels: &chart.labels, rows: Minutes::new(chart, numbers) });
        Settler { chart, shortest: Shortest::new(n), longest: Longest::new(&chart.out), bad: vec![false; n], counter }
    }

    /// Operands are lower than their node, so the rows are settled in order.
    pub fn settle(&mut self, rule: &Rule, marks: &mut [u8]) {
        let n = self.chart.labels.len();
        for (t, node) in rule.nodes.iter().enumerate() {
            let (before, rest) = marks.split_at_mut(t * n);
            self.settle_node(*node, before, &mut rest[..n]);
        }
    }

    fn settle_node(&mut self, node: Node, rows: &[u8], marks: &mut [u8]) {
        let n = marks.len();
        match node {
            Node::SomeRun(a, b, bound) => self.some_run(row(rows, n, a), row(rows, n, b), bound, marks),
            Node::AllRuns(a, b, bound) => self.all_runs(row(rows, n, a), row(rows, n, b), bound, marks),
            _ => plain_node(&self.chart.labels, node, rows, marks),
        }
    }

    fn some_run(&mut self, p: &[u8], q: &[u8], bound: Bound, marks: &mut [u8]) {
        match bound {
            Bound::AtMost(c) => {
                self.shortest.search(&self.chart.into, |s| q[s] == 1, |s| p[s] == 1, c);
                fill(marks, |s| self.shortest.minutes[s] != FAR);
            }
            Bound::AtLeast(c) => {
                for (s, minutes) in self.longest.minutes.iter_mut().enumerate() {
                    *minutes = if q[s] == 1 { 0 } else { NONE };
                }
                self.longest.search(&self.chart.out, |s| p[s] == 1, most);
                fill(marks, |s| self.longest.minutes[s] >= i64::from(c));
            }
            Bound::Exactly(_) => self.counter.iter_mut().for_each(|counter| counter.some_marks(p, q, bound, marks)),
        }
    }

    fn all_runs(&mut self, p: &[u8], q: &[u8], bound: Bound, marks: &mut [u8]) {
        match bound {
            Bound::AtMost(c) => {
                self.waiting(p, q);
                self.longest.search(&self.chart.out, |s| p[s] > q[s], most);
                fill(marks, |s| self.longest.minutes[s] <= i64::from(c));
            }
            Bound::AtLeast(0) => {
                self.plain_until(p, q);
                fill(marks, |s| self.longest.minutes[s] < UNBOUNDED);
            }
            Bound::AtLeast(c) => {
                self.plain_until(p, q);
                self.find_bad(p);
                // The until fails exactly if a bad state can be met at a moment below c.
                self.shortest.search(&self.chart.into, |s| self.bad[s], |_| true, c - 1);
                fill(marks, |s| self.shortest.minutes[s] == FAR);
            }
            Bound::Exactly(_) => self.counter.iter_mut().for_each(|counter| counter.all_marks(p, q, bound, marks)),
        }
    }

    /// Where a run that waits for Q may end: neither P nor Q there fails at any bound.
    fn waiting(&mut self, p: &[u8], q: &[u8]) {
        for (s, minutes) in self.longest.minutes.iter_mut().enumerate() {
            *minutes = if p[s] | q[s] == 1 { 0 } else { UNBOUNDED };
        }
    }

    /// Afterwards the longest time is unbounded where some run never meets Q, or leaves P before it, and 0 elsewhere.
    fn plain_until(&mut self, p: &[u8], q: &[u8]) {
        self.waiting(p, q);
        self.longest.search(&self.chart.out, |s| p[s] > q[s], |_| 0);
    }

    /// States without P, or with an arrow to a state where the plain until fails.
    fn find_bad(&mut self, p: &[u8]) {
        let minutes = &self.longest.minutes;
        for (s, bad) in self.bad.iter_mut().enumerate() {
            let fails = || self.chart.out.of(s).iter().any(|a| minutes[usize::from(a.other)] >= UNBOUNDED);
            *bad = p[s] == 0 || fails();
        }
    }
}

/// The marks of a node that is no until.
pub fn plain_node(labels: &[u16], node: Node, rows: &[u8], marks: &mut [u8]) {
    let n = marks.len();
    match node {
        Node::True => marks.fill(1),
        Node::Label(label) => fill(marks, |s| labels[s] >> label & 1 == 1),
        Node::Not(a) => fill(marks, |s| row(rows, n, a)[s] == 0),
        Node::And(a, b) => fill(marks, |s| row(rows, n, a)[s] & row(rows, n, b)[s] == 1),
        Node::Or(a, b) => fill(marks, |s| row(rows, n, a)[s] | row(rows, n, b)[s] == 1),
        Node::SomeRun(..) | Node::AllRuns(..) => {}
    }
}

pub fn fill(marks: &mut [u8], holds: impl Fn(usize) -> bool) {
    for (s, mark) in marks.iter_mut().enumerate() {
        *mark = u8::from(holds(s));
    }
}
