//! The peer against the meaning itself on small random charts: untils are decided over pairs of a state and the minutes
//! passed, where the minutes stop counting once they are past the bound. A run counts only if its moments pass every number.

use crate::common::{check_scratch, marks, node};
use bench::bytes::{self, Arrow, Node, NO_END};
use bench::peer;
use bench::random::Random;

/// A pair that can't be told apart by the bound.
pub struct Pairs<'a> {
    pub arrows: &'a [Arrow],
    pub n: usize,
    /// One more than the bound: the minutes at which counting stops.
    pub top: usize,
}

/// A step to a pair, and whether it takes time.
pub struct Step {
    pub to: (usize, usize),
    timed: bool,
}

/// Whether each pair is in a set, by state and minutes.
type Set = Vec<Vec<bool>>;

impl Pairs<'_> {
    /// Every step that may be taken from a pair.
    pub fn steps(&self, state: usize, minutes: usize) -> Vec<Step> {
        let mut steps = Vec::new();
        for arrow in self.arrows.iter().filter(|arrow| usize::from(arrow.start) == state) {
            let last = if arrow.most == NO_END { arrow.fewest + self.top as u16 } else { arrow.most };
            for duration in arrow.fewest..=last {
                let minutes = (minutes + usize::from(duration)).min(self.top);
                steps.push(Step { to: (usize::from(arrow.end), minutes), timed: duration > 0 });
            }
        }
        steps
    }

    /// The until at each state at minute 0, as the least set of pairs closed under the steps that take time. A run that
    /// only takes others doesn't count: so under these the set is the least for E and the greatest for A.
    fn until(&self, all_runs: bool, p: &[bool], q: &dyn Fn(usize, usize) -> bool) -> Vec<bool> {
        let mut met = vec![vec![false; self.top + 1]; self.n];
        loop {
            let before = met;
            met = vec![vec![all_runs; self.top + 1]; self.n];
            while self.round(all_runs, p, q, &before, &mut met) {}
            if met == before {
                return met.iter().map(|row| row[0]).collect();
            }
        }
    }

    /// Decides every pair anew, `before` being what is met after a step that takes time. Whether one has changed.
    fn round(&self, all: bool, p: &[bool], q: &dyn Fn(usize, usize) -> bool, before: &Set, met: &mut Set) -> bool {
        let mut changed = false;
        for (s, t) in (0..self.n).flat_map(|s| (0..=self.top).map(move |t| (s, t))) {
            let holds = |step: &Step| (if step.timed { before } else { &*met })[step.to.0][step.to.1];
            let steps = self.steps(s, t);
            let onward = if all { steps.iter().all(holds) } else { steps.iter().any(holds) };
            let now = q(s, t) || p[s] && onward;
            changed |= met[s][t] != now;
            met[s][t] = now;
        }
        changed
    }
}

fn rows(labels: &[u16], arrows: &[Arrow], nodes: &[Node]) -> Vec<Vec<bool>> {
    let n = labels.len();
    let mut rows: Vec<Vec<bool>> = Vec::new();
    for node in nodes {
        let left = rows.get(usize::from(node.a)).cloned().unwrap_or_default();
        let right = rows.get(usize::from(node.b)).cloned().unwrap_or_default();
        let c = usize::from(node.c);
        let meets = |t: usize| match node.kind {
            1 => t <= c,
            2 => t >= c,
            _ => t == c,
        };
        let row = match node.operation {
            0 => vec![true; n],
            1 => labels.iter().map(|label| label >> node.a & 1 == 1).collect(),
            2 => left.iter().map(|&a| !a).collect(),
            3 => (0..n).map(|s| left[s] && right[s]).collect(),
            4 => (0..n).map(|s| left[s] || right[s]).collect(),
            _ => {
                let pairs = Pairs { arrows, n, top: c + 1 };
                pairs.until(node.operation == 6, &left, &|s, t| right[s] && meets(t))
            }
        };
        rows.push(row);
    }
    rows
}

/// Of eight arrows none, some or most are 0 to 0.
pub fn random_chart(random: &mut Random) -> (Vec<u16>, Vec<Arrow>) {
    let n = 1 + random.below(6);
    let m = n + random.below(n + 2);
    let instant = [0, 1, 4, 6][random.below(4)];
    let labels = (0..n).map(|_| random.below(8) as u16).collect();
    let mut arrows = Vec::new();
    for i in 0..m {
        let start = if i < n { i } else { random.below(n) };
        let (fewest, most) = if random.chance(instant, 8) { (0, 0) } else { random_slot(random) };
        arrows.push(Arrow { start: start as u16, end: random.below(n) as u16, fewest, most });
    }
    (labels, arrows)
}

fn random_slot(random: &mut Random) -> (u16, u16) {
    let fewest = random.below(4) as u16;
    let most = if random.chance(1, 8) { NO_END } else { fewest + random.below(3) as u16 };
    (fewest, most)
}

/// A tree in which each node but the last is used once: operands are taken from the roots still free.
pub fn random_rule(random: &mut Random) -> Vec<Node> {
    let mut nodes = Vec::new();
    let mut free = Vec::new();
    for _ in 0..2 + random.below(3) {
        let label = random.below(4) as u16;
        nodes.push(if label == 3 { node(0, 0, 0, 0, 0) } else { node(1, 0, label, 0, 0) });
        free.push(nodes.len() as u16 - 1);
    }
    while free.len() > 1 {
        let a = free.swap_remove(random.below(free.len()));
        if random.chance(1, 4) {
            nodes.push(node(2, 0, a, 0, 0));
        } else {
            let b = free.swap_remove(random.below(free.len()));
            nodes.push(two_operands(a, b, random));
        }
        free.push(nodes.len() as u16 - 1);
    }
    nodes
}

fn two_operands(a: u16, b: u16, random: &mut Random) -> Node {
    if random.chance(1, 6) {
        return node(3 + random.below(2) as u8, 0, a, b, 0);
    }
    let (operation, kind) = (5 + random.below(2) as u8, 1 + random.below(3) as u8);
    node(operation, kind, a, b, random.below(12) as u16)
}

/// The states that arrows lead to from that one, itself included.
fn reached(n: usize, arrows: &[Arrow], from: usize) -> Vec<bool> {
    let mut reached = vec![false; n];
    reached[from] = true;
    for _ in 0..n {
        for arrow in arrows {
            reached[usize::from(arrow.end)] |= reached[usize::from(arrow.start)];
        }
    }
    reached
}

/// The lowest state from which no loop holding an arrow with most above 0 can be reached.
pub fn timelock(n: usize, arrows: &[Arrow]) -> Option<usize> {
    let reached: Vec<Vec<bool>> = (0..n).map(|s| reached(n, arrows, s)).collect();
    let on_loop = |a: &&Arrow| a.most > 0 && reached[usize::from(a.end)][usize::from(a.start)];
    let starts: Vec<usize> = arrows.iter().filter(on_loop).map(|a| usize::from(a.start)).collect();
    (0..n).find(|&s| !starts.iter().any(|&start| reached[s][start]))
}

#[test]
fn random_charts() {
    let mut random = Random::new(7);
    let (mut accepted, mut refused) = (0, 0);
    for _ in 0..30_000 {
        let (labels, arrows) = random_chart(&mut random);
        let nodes = random_rule(&mut random);
        let (n, k) = (labels.len(), nodes.len());
        if let Some(place) = timelock(n, &arrows) {
            let (mut table, mut scratch) = (vec![9; k * n], vec![9; check_scratch(n, &nodes)]);
            let outcome = peer::check(&bytes::chart(&labels, &arrows), &bytes::rule(&nodes), &mut table, &mut scratch);
            assert_eq!((outcome.number, outcome.place as usize, outcome.entry), (19, place, 1));
            refused += 1;
            continue;
        }
        let expected: Vec<u8> = rows(&labels, &arrows, &nodes).concat().into_iter().map(u8::from).collect();
        assert_eq!(marks(&labels, &arrows, &nodes), expected, "{labels:?} {arrows:?} {nodes:?}");
        accepted += 1;
    }
    assert!(accepted > 10_000 && refused > 1_000, "{accepted} accepted, {refused} refused");
}
