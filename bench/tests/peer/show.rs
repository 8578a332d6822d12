//! The peer's shown runs on small random charts: each is a true reason, and no fewer steps make one, which is searched for
//! forwards over pairs of a state and the minutes passed.

use crate::common::{arrow, check_scratch, marks, node, show, Ask, LENT_MARK, LENT_NUMBER};
use crate::reason::{judge, positions, Until};
use crate::runs::{random_chart, random_rule, timelock, Pairs};
use bench::bytes::{self, Arrow, Node, NO_END};
use bench::random::Random;
use std::collections::BTreeSet;

/// The fewest steps of a run that ends the until, whatever their number.
fn fewest_steps(until: &Until, arrows: &[Arrow], state: usize) -> Option<usize> {
    let pairs = Pairs { arrows, n: until.p.len(), top: usize::from(until.node.c) + 1 };
    let mut seen = BTreeSet::from([(state, 0)]);
    let mut layer: Vec<(usize, usize)> = vec![(state, 0)];
    for steps in 0.. {
        if layer.iter().any(|&(s, minutes)| until.ends(s, minutes as u64)) {
            return Some(steps);
        }
        let left = layer.iter().filter(|&&(s, minutes)| until.goes_on(s, minutes as u64));
        let next: Vec<_> = left.flat_map(|&(s, minutes)| pairs.steps(s, minutes)).map(|step| step.to).collect();
        layer = next.into_iter().filter(|&pair| seen.insert(pair)).collect();
        if layer.is_empty() {
            break;
        }
    }
    None
}

/// A chart and a rule with the marks that they have.
struct Case {
    labels: Vec<u16>,
    arrows: Vec<Arrow>,
    nodes: Vec<Node>,
    marks: Vec<u8>,
}

impl Case {
    fn new(labels: Vec<u16>, arrows: Vec<Arrow>, nodes: Vec<Node>) -> Case {
        let marks = marks(&labels, &arrows, &nodes);
        Case { labels, arrows, nodes, marks }
    }

    fn row(&self, t: u16) -> Vec<bool> {
        let (t, n) = (usize::from(t), self.labels.len());
        self.marks[t * n..(t + 1) * n].iter().map(|&mark| mark == 1).collect()
    }

    /// The number that show answers with room for so many bytes, after all that it leaves is looked at.
    fn answer(&self, t: usize, state: usize, output: usize) -> u32 {
        let (n, k, node) = (self.labels.len(), self.nodes.len(), self.nodes[t]);
        let ask = Ask { node: t, state, marks: k * n + 3, scratch: 257 * n + 3, output };
        let shown = show(&bytes::chart(&self.labels, &self.arrows), &bytes::rule(&self.nodes), ask);
        let (number, written) = (shown.answer.outcome.number, shown.answer.written);
        assert_eq!(shown.answer.outcome.place, 0);
        assert_eq!(shown.marks, [&self.marks[..], &[LENT_MARK; 3]].concat());
        let cleared = if number == 60 { check_scratch(n, &self.nodes) } else { 257 * n };
        assert!(shown.scratch[..cleared].iter().all(|&number| number == 0));
        assert!(shown.scratch[cleared..].iter().all(|&number| number == LENT_NUMBER));
        assert!(shown.output[written..].iter().all(|&byte| byte == LENT_MARK));
        let mark = self.row(t as u16)[state];
        let until = matches!((node.operation, node.kind, mark), (5, _, true) | (6, 1, false));
        if !until {
            assert_eq!((number, written), (60, 0));
            return number;
        }
        let until = Until { node, p: &self.row(node.a), q: &self.row(node.b) };
        let steps = fewest_steps(&until, &self.arrows, state).expect("a marked E or unmarked A has a reason");
        if steps > 256 || 6 * (steps + 1) > output {
            assert_eq!((number, written), (62, 0), "{steps} steps");
        } else {
            assert_eq!((number, written), (0, 6 * (steps + 1)), "{:?} {:?} {t} {state}", self.arrows, self.nodes);
            judge(&until, &self.arrows, state, &positions(&shown.output[..written]));
        }
        number
    }
}

/// Bytes for the longest run that is shown.
const LONGEST: usize = 6 * 257;

/// Asks for every node at every state, with that room; adds up how often 0, 60 and 62 are answered.
fn all_nodes(case: &Case, mut room: impl FnMut() -> usize, counts: &mut [usize; 3]) {
    for t in 0..case.nodes.len() {
        for state in 0..case.labels.len() {
            let number = case.answer(t, state, room());
            counts[[0, 60, 62].iter().position(|&known| known == number).expect("0, 60 or 62")] += 1;
        }
    }
}

fn random_case(random: &mut Random, bounds: usize) -> Option<Case> {
    let (labels, arrows) = random_chart(random);
    let mut nodes = random_rule(random);
    for node in nodes.iter_mut().filter(|node| node.operation >= 5) {
        node.c = random.below(if node.kind == 3 { bounds.min(256) } else { bounds }) as u16;
    }
    timelock(labels.len(), &arrows).is_none().then(|| Case::new(labels, arrows, nodes))
}

#[test]
fn random_charts() {
    let (mut random, mut rooms) = (Random::new(17), Random::new(19));
    let mut counts = [0; 3];
    for _ in 0..20_000 {
        let room = || if rooms.chance(1, 4) { rooms.below(60) } else { LONGEST };
        if let Some(case) = random_case(&mut random, 12) {
            all_nodes(&case, room, &mut counts);
        }
    }
    assert!(counts[0] > 20_000 && counts[1] > 20_000 && counts[2] > 1_000, "{counts:?}");
}

/// Some of the runs have more than 256 steps.
#[test]
fn far_bounds() {
    let mut random = Random::new(18);
    let mut counts = [0; 3];
    for _ in 0..3_000 {
        if let Some(case) = random_case(&mut random, 1_200) {
            all_nodes(&case, || LONGEST, &mut counts);
        }
    }
    assert!(counts[0] > 2_000 && counts[2] > 200, "{counts:?}");
}

/// The run that one chart, one until and one state have.
fn run(labels: &[u16], arrows: &[Arrow], until: [Node; 3], output: usize) -> (u32, Vec<(usize, u64)>) {
    let ask = Ask { node: 2, state: 0, marks: 3 * labels.len(), scratch: 257 * labels.len(), output };
    let shown = show(&bytes::chart(labels, arrows), &bytes::rule(&until), ask);
    (shown.answer.outcome.number, positions(&shown.output[..shown.answer.written]))
}

/// True until label a.
fn until(operation: u8, kind: u8, a: u16, c: u16) -> [Node; 3] {
    [node(0, 0, 0, 0, 0), node(1, 0, a, 0, 0), node(operation, kind, 0, 1, c)]
}

#[test]
fn short_from_state_0() {
    let short = [arrow(0, 1, 5, 10), arrow(1, 2, 0, 4), arrow(2, 0, 20, NO_END)];
    let labels = [1, 2, 4];
    assert_eq!(run(&labels, &short, until(5, 1, 2, 5), 18), (0, vec![(0, 5), (1, 0), (2, 0)]));
    assert_eq!(run(&labels, &short, until(6, 1, 2, 13), 18), (0, vec![(0, 10), (1, 4), (2, 0)]));
    assert_eq!(run(&labels, &short, until(6, 1, 2, 13), 17), (62, vec![]));
    assert_eq!(run(&labels, &short, until(5, 2, 0, 0), 6), (0, vec![(0, 0)]));
    assert_eq!(run(&labels, &short, until(5, 2, 0, 0), 5), (62, vec![]));
    assert_eq!(run(&labels, &short, until(5, 2, 0, 0), 0), (62, vec![]));
}

#[test]
fn as_many_steps_as_are_shown() {
    let one = [arrow(0, 0, 1, 1)];
    let always = |c| [node(0, 0, 0, 0, 0), node(0, 0, 0, 0, 0), node(5, 2, 0, 1, c)];
    let (number, steps) = run(&[0], &one, always(256), 1_542);
    assert_eq!((number, steps.len()), (0, 257));
    assert_eq!(run(&[0], &one, always(256), 1_541), (62, vec![]));
    assert_eq!(run(&[0], &one, always(257), 99_999), (62, vec![]));
    assert_eq!(run(&[0], &one, until(6, 1, 3, 255), 1_542).1.len(), 257);
}

/// Exactly so many minutes, in as few steps as can be; those in no time are steps too.
#[test]
fn exact_bounds() {
    let short = [arrow(0, 1, 5, 10), arrow(1, 2, 0, 4), arrow(2, 0, 20, NO_END)];
    assert_eq!(run(&[1, 2, 4], &short, until(5, 3, 2, 14), 18), (0, vec![(0, 10), (1, 4), (2, 0)]));
    assert_eq!(run(&[1, 2, 4], &short, until(5, 3, 2, 14), 17), (62, vec![]));
    assert_eq!(run(&[1, 2, 4], &short, until(5, 3, 2, 15), 18), (60, vec![]));
    assert_eq!(run(&[1, 2, 4], &short, until(6, 3, 2, 14), 18), (60, vec![]));
    let always = |c| [node(0, 0, 0, 0, 0), node(0, 0, 0, 0, 0), node(5, 3, 0, 1, c)];
    let turns = [arrow(1, 0, 0, 0), arrow(0, 1, 1, 1)];
    assert_eq!(run(&[0, 0], &turns, always(128), 1_542).1.len(), 256);
    assert_eq!(run(&[0, 0], &turns, always(129), 99_999), (62, vec![]));
    assert_eq!(run(&[0], &[arrow(0, 0, 3, NO_END)], always(255), 12), (0, vec![(0, 255), (0, 0)]));
    assert_eq!(run(&[0], &[arrow(0, 0, 1, 1)], always(255), 1_536).1.len(), 256);
    assert_eq!(run(&[0], &[arrow(0, 0, 1, 1)], always(0), 6), (0, vec![(0, 0)]));
}

/// One step may take more minutes than 16 bits hold.
#[test]
fn slots_without_end() {
    let open = [arrow(0, 0, 3, NO_END)];
    assert_eq!(run(&[0], &open, until(6, 1, 0, 65_535), 12), (0, vec![(0, 65_536), (0, 0)]));
    assert_eq!(run(&[0], &open, until(6, 1, 0, 1), 12), (0, vec![(0, 3), (0, 0)]));
    let always = [node(0, 0, 0, 0, 0), node(0, 0, 0, 0, 0), node(5, 2, 0, 1, 65_535)];
    assert_eq!(run(&[0], &open, always, 12), (0, vec![(0, 65_535), (0, 0)]));
}

/// The longest slots with an end, as many as are shown: no sum wraps.
#[test]
fn greatest_sums() {
    let labels: Vec<u16> = (0..256).map(|s| u16::from(s == 255)).collect();
    let far = |s: u16| arrow(s, (s + 1) % 256, 65_534, 65_534);
    let mut line: Vec<Arrow> = (0..256).map(far).collect();
    let marks = marks(&labels, &line, &until(5, 1, 0, 65_535));
    assert_eq!(marks[2 * 256..].iter().filter(|&&mark| mark == 1).count(), 2);
    line.push(arrow(0, 255, 65_534, 65_534));
    assert_eq!(run(&labels, &line, until(5, 1, 0, 65_535), 1_542), (0, vec![(0, 65_534), (255, 0)]));
}
