//! All finite runs of a few steps over tiny charts, one by one, against the search and the judge.

use crate::make::{chart, l0_l1, run, ArrowFields, Numbers, A, AT_LEAST, AT_MOST, E, EXACTLY, NO_END};
use crate::show_call::with_room;
use oracle::{check, fewest_steps, judge_run};

/// The runs that are gone through have no more steps.
const STEPS: usize = 4;

struct Tiny {
    labels: Vec<u16>,
    arrows: Vec<ArrowFields>,
    operation: u8,
    kind: u8,
    c: u16,
}

impl Tiny {
    fn some(numbers: &mut Numbers) -> Tiny {
        let n = 1 + numbers.below(4);
        let starts = (0..n).chain((0..numbers.below(4)).map(|extra| extra % n)).collect::<Vec<_>>();
        let arrows = starts.into_iter().map(|start| Tiny::arrow(numbers, n, start)).collect();
        let labels = (0..n).map(|_| [0, 1, 1, 1, 2, 3][numbers.below(6) as usize]).collect();
        let asked = [(E, AT_MOST), (E, AT_LEAST), (E, EXACTLY), (A, AT_MOST)];
        let (operation, kind) = asked[numbers.below(4) as usize];
        Tiny { labels, arrows, operation, kind, c: numbers.below(6) as u16 }
    }

    fn arrow(numbers: &mut Numbers, n: u64, start: u64) -> ArrowFields {
        let fewest = [0, 0, 1, 2][numbers.below(4) as usize];
        let most = if numbers.below(8) == 0 { NO_END } else { fewest + numbers.below(3) as u16 };
        [start as u16, numbers.below(n) as u16, fewest, most]
    }

    fn bytes(&self) -> (Vec<u8>, Vec<u8>) {
        (chart(&self.labels, &self.arrows), l0_l1(self.operation, self.kind, self.c))
    }

    /// One step more in every way; durations of "no end" only as far as they can matter.
    fn longer(&self, run: &[(u16, u32)]) -> Vec<Vec<(u16, u32)>> {
        let ((last, _), before) = run.split_last().map(|(last, before)| (*last, before)).unwrap();
        let mut longer = Vec::new();
        for &[_, end, fewest, most] in self.arrows.iter().filter(|arrow| arrow[0] == last) {
            let most = if most == NO_END { fewest + self.c + 1 } else { most };
            let step = |duration: u16| [before, &[(last, duration.into()), (end, 0)]].concat();
            longer.extend((fewest..=most).map(step));
        }
        longer
    }

    fn p(&self, at: &(u16, u32)) -> bool {
        self.labels[usize::from(at.0)] & 1 != 0
    }

    fn q(&self, at: &(u16, u32)) -> bool {
        self.labels[usize::from(at.0)] & 2 != 0
    }

    /// Position i meets the until.
    fn met(&self, run: &[(u16, u32)], i: usize) -> bool {
        let (moment, c) = (run[..i].iter().map(|at| at.1).sum::<u32>(), u32::from(self.c));
        let bound_met = match self.kind {
            AT_MOST => moment <= c,
            AT_LEAST => moment >= c,
            _ => moment == c,
        };
        bound_met && self.q(&run[i]) && run[..i].iter().all(|at| self.p(at))
    }

    /// Position i ends a run that is to show why an A-until doesn't hold.
    fn over(&self, run: &[(u16, u32)], i: usize) -> bool {
        let moment: u32 = run[..i].iter().map(|at| at.1).sum();
        moment > u32::from(self.c) || !self.p(&run[i]) && !self.q(&run[i])
    }

    fn is_reason(&self, run: &[(u16, u32)]) -> bool {
        let last = run.len() - 1;
        match self.operation {
            E => self.met(run, last),
            _ => self.over(run, last) && (0..last).all(|i| !self.over(run, i) && !self.met(run, i)),
        }
    }
}

/// Goes through all runs from a state, by steps; gives the fewest steps of a reason among them. Some runs, and all
/// reasons of up to two steps, are judged.
fn gone_through(tiny: &Tiny, state: usize, such: bool, numbers: &mut Numbers) -> Option<usize> {
    let (chart, rule) = tiny.bytes();
    let mut runs = vec![vec![(state as u16, 0)]];
    let mut fewest = None;
    for steps in 0..=STEPS {
        for positions in &runs {
            let reason = tiny.is_reason(positions);
            if reason {
                fewest = fewest.or(Some(steps));
            }
            if reason && steps < 3 || numbers.below(50) == 0 {
                let judged = judge_run(&chart, &rule, 2, state, &run(positions));
                assert_eq!(judged.is_ok(), reason, "{positions:?} {judged:?}");
            }
        }
        assert!(such || fewest.is_none(), "a reason where there is no such mark");
        if steps < STEPS {
            runs = runs.iter().flat_map(|run| tiny.longer(run)).take(20_000).collect();
        }
    }
    fewest
}

/// The states at which a run is asked for; None where the chart is refused.
fn such_marks(tiny: &Tiny) -> Option<Vec<bool>> {
    let (chart, rule) = tiny.bytes();
    let n = tiny.labels.len();
    let mut marks = vec![7; 3 * n];
    match check(&chart, &rule, &mut marks, &mut [0; 4 * 256]).number {
        0 => Some(marks[2 * n..].iter().map(|&mark| (mark == 1) == (tiny.operation == E)).collect()),
        number => {
            assert_eq!(number, 19);
            None
        }
    }
}

#[test]
fn search_agrees_with_all_runs() {
    let mut numbers = Numbers(3);
    let mut with_steps = [0; STEPS + 1];
    for _ in 0..8000 {
        let tiny = Tiny::some(&mut numbers);
        let (chart, rule) = tiny.bytes();
        for (state, such) in such_marks(&tiny).into_iter().flatten().enumerate() {
            let searched = fewest_steps(&chart, &rule, 2, state);
            assert_eq!(searched.is_some(), such);
            assert_eq!(with_room(&chart, &rule, 2, state).answer.0, if such { 0 } else { 60 });
            let found = gone_through(&tiny, state, such, &mut numbers);
            assert_eq!(found, searched.filter(|&steps| steps <= STEPS), "{:?} {:?}", tiny.labels, tiny.arrows);
            found.into_iter().for_each(|steps| with_steps[steps] += 1);
        }
    }
    assert!(with_steps.iter().all(|&cases| cases > 20), "{with_steps:?}");
}
