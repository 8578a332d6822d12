//! Small charts, every duration by itself: is there a run that counts and meets an until, one that counts and doesn't?
//! Such a run goes round in the product of state, moment and what became of the until, again and again, each time later.
//! Check, count and row 19 are compared with that.

use crate::make::{chart, l0_l1, ArrowFields, Numbers, A, AT_LEAST, AT_MOST, E, EXACTLY, NO_END};
use oracle::{check, count, has_leavable_loop_of_0_to_0, has_loop_of_fewest_0, Outcome};
use std::collections::HashSet;

/// What became of the until: it was met; it can't be met any more, P having failed; neither so far.
#[derive(Clone, Copy, PartialEq, Eq, Hash)]
enum Became {
    Met,
    Lost,
    Open,
}

/// A state, a moment, c + 1 standing for all above c, and what became of the until, this position included.
type Triple = (u16, u16, Became);

/// L0 until L1 on a chart.
#[derive(Debug)]
struct Small {
    labels: Vec<u16>,
    arrows: Vec<ArrowFields>,
    kind: u8,
    c: u16,
}

impl Small {
    fn some(numbers: &mut Numbers, slots: &[[u16; 2]], c_below: u64) -> Small {
        let n = 1 + numbers.below(4);
        let starts: Vec<u64> = (0..n).chain((0..numbers.below(5)).map(|extra| extra % n)).collect();
        let mut arrow = |start: u64| {
            let [fewest, most] = slots[numbers.below(slots.len() as u64) as usize];
            [start as u16, numbers.below(n) as u16, fewest, most]
        };
        let arrows = starts.into_iter().map(&mut arrow).collect();
        let labels = (0..n).map(|_| [0, 1, 1, 1, 2, 3][numbers.below(6) as usize]).collect();
        let kind = [AT_MOST, AT_LEAST, EXACTLY][numbers.below(3) as usize];
        Small { labels, arrows, kind, c: numbers.below(c_below) as u16 }
    }

    fn chart(&self) -> Vec<u8> {
        chart(&self.labels, &self.arrows)
    }

    fn becomes(&self, before: Became, state: u16, moment: u16) -> Became {
        let labels = self.labels[usize::from(state)];
        let bound_met = match self.kind {
            AT_MOST => moment <= self.c,
            AT_LEAST => moment >= self.c,
            _ => moment == self.c,
        };
        match before {
            Became::Open if labels & 2 != 0 && bound_met => Became::Met,
            Became::Open if labels & 1 == 0 => Became::Lost,
            _ => before,
        }
    }

    /// What comes next, and whether time passes; one for each duration, of "no end" as far as they can matter.
    fn nexts(&self, (state, moment, became): Triple) -> Vec<(Triple, bool)> {
        let mut nexts = Vec::new();
        for &[_, end, fewest, most] in self.arrows.iter().filter(|arrow| arrow[0] == state) {
            let most = if most == NO_END { fewest + self.c + 1 } else { most };
            nexts.extend((fewest..=most).map(|duration| {
                let then = (moment + duration).min(self.c + 1);
                ((end, then, self.becomes(became, end, then)), duration > 0)
            }));
        }
        nexts
    }

    /// All that runs come to from here, this triple among them.
    fn come_to(&self, from: Triple) -> HashSet<Triple> {
        let mut come_to = HashSet::new();
        let mut open = vec![from];
        while let Some(at) = open.pop() {
            if come_to.insert(at) {
                open.extend(self.nexts(at).into_iter().map(|(next, _)| next));
            }
        }
        come_to
    }

    /// Whether a run can come back here again and again, each time later.
    fn later_again(&self, at: &Triple) -> bool {
        self.nexts(*at).into_iter().any(|(next, passes)| passes && self.come_to(next).contains(at))
    }

    /// Whether from this state some run that counts meets the until, and whether one doesn't.
    fn runs_that_count(&self, state: u16) -> (bool, bool) {
        let mut round = self.come_to((state, 0, self.becomes(Became::Open, state, 0)));
        round.retain(|at| self.later_again(at));
        let met = |at: &Triple| at.2 == Became::Met;
        (round.iter().any(met), !round.iter().all(met))
    }

    /// The outcome and the last row of marks, by check and by count.
    fn called(&self, operation: u8) -> (Outcome, Vec<u8>) {
        let (chart, rule, n) = (self.chart(), l0_l1(operation, self.kind, self.c), self.labels.len());
        let (mut checked, mut counted) = (vec![7; 3 * n], vec![7; 3 * n]);
        let outcome = check(&chart, &rule, &mut checked, &mut vec![9; 256 * n]);
        assert_eq!(count(&chart, &rule, &mut counted, &mut vec![9; 256 * n]), outcome);
        assert_eq!(counted, checked, "{self:?}");
        (outcome, checked.split_off(2 * n))
    }

    /// Row 19 names the lowest state from which no run counts. On other charts E is marked where some run that counts
    /// meets the until, and A where none doesn't. Says whether the chart is accepted.
    fn compare(&self) -> bool {
        let runs: Vec<(bool, bool)> = (0..self.labels.len() as u16).map(|state| self.runs_that_count(state)).collect();
        let without = runs.iter().position(|&run| run == (false, false));
        let (number, place, entry) = without.map_or((0, 0, 0), |state| (19, state as u32, 1));
        let marked = |holds: fn(&(bool, bool)) -> bool| match without {
            Some(_) => vec![7; runs.len()],
            None => runs.iter().map(|run| u8::from(holds(run))).collect(),
        };
        let outcome = Outcome { number, place, entry };
        assert_eq!(self.called(E), (outcome, marked(|run| run.0)), "{self:?}");
        assert_eq!(self.called(A), (outcome, marked(|run| !run.1)), "{self:?}");
        without.is_none()
    }
}

#[test]
fn small_slots() {
    let slots = [[0, 0], [0, 0], [0, 0], [0, 1], [0, 2], [1, 1], [0, NO_END]];
    let mut numbers = Numbers(31);
    let (mut refused, mut fewest_0, mut leavable) = (0, 0, 0);
    for _ in 0..8000 {
        let small = Small::some(&mut numbers, &slots, 4);
        let accepted = small.compare();
        refused += u32::from(!accepted);
        fewest_0 += u32::from(accepted && has_loop_of_fewest_0(&small.chart()));
        leavable += u32::from(accepted && has_leavable_loop_of_0_to_0(&small.chart()));
    }
    assert!(refused > 800 && fewest_0 > 3000 && leavable > 800, "{refused} {fewest_0} {leavable}");
}

#[test]
fn longer_slots() {
    let slots = [[0, 0], [0, 3], [1, 5], [2, 2], [3, 7], [1, NO_END], [3, NO_END]];
    let mut numbers = Numbers(5);
    let accepted = (0..3000).filter(|_| Small::some(&mut numbers, &slots, 12).compare()).count();
    assert!(accepted > 2200, "{accepted}");
}
