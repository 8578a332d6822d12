//! The inputs of show are as large as is claimed, their runs have the steps of their names, and the layers of the search are
//! full.

use crate::common::{arrows_of, show, word, Ask};
use crate::reason::{judge, positions, Until};
use bench::bytes::Node;
use bench::shown::{self, Shown};

fn rows() -> impl Iterator<Item = (&'static str, Shown)> {
    shown::ROWS.into_iter().map(|(chart, rule)| (rule, shown::input(chart, rule).expect(rule)))
}

/// The marks, and the run.
fn answer(input: &Shown) -> (Vec<u8>, Vec<(usize, u64)>) {
    let ask = Ask { node: input.node, state: input.state, marks: 3 * 256, scratch: 257 * 256, output: 6 * 257 };
    let shown = show(&input.chart, &input.rule, ask);
    assert_eq!(shown.answer.outcome.number, 0);
    (shown.marks, positions(&shown.output[..shown.answer.written]))
}

fn last_node(rule: &[u8]) -> Node {
    let bytes = &rule[rule.len() - 8..];
    Node { operation: bytes[0], kind: bytes[1], a: word(bytes, 2), b: word(bytes, 4), c: word(bytes, 6) }
}

#[test]
fn runs_have_the_steps_of_their_names() {
    for (name, input) in rows() {
        assert_eq!((word(&input.chart, 5), word(&input.chart, 7)), (256, 2048), "{name}");
        assert_eq!(name.rsplit('-').next(), Some(input.steps.to_string().as_str()));
        let (marks, run) = answer(&input);
        assert_eq!(run.len() - 1, input.steps, "{name}");
        let holds = |t: usize| marks[t * 256..(t + 1) * 256].iter().map(|&mark| mark == 1).collect::<Vec<_>>();
        let until = Until { node: last_node(&input.rule), p: &holds(0), q: &holds(1) };
        judge(&until, &arrows_of(&input.chart), input.state, &run);
    }
}

/// Of how many states runs of exactly so many steps end the until, all bounds left out of it.
fn live(input: &Shown, steps: usize) -> usize {
    let labels: Vec<u16> = (0..256).map(|s| word(&input.chart, 9 + 2 * s)).collect();
    let (p, q) = (|s: usize| labels[s] & 1 == 1, |s: usize| labels[s] & 2 == 2);
    let some_run = last_node(&input.rule).operation == 5;
    let arrows = arrows_of(&input.chart);
    let mut layer: Vec<bool> = (0..256).map(|s| !some_run || q(s)).collect();
    for _ in 0..steps {
        let mut next = vec![false; 256];
        for arrow in &arrows {
            let start = usize::from(arrow.start);
            next[start] |= p(start) && (some_run || !q(start)) && layer[usize::from(arrow.end)];
        }
        layer = next;
    }
    layer.into_iter().filter(|&live| live).count()
}

/// Where few states have a run, a search that skips the others would have little to do.
#[test]
fn nearly_every_state_has_runs() {
    for (name, input) in rows() {
        for steps in [5, 6, 30, 256] {
            let live = live(&input, steps);
            assert!(live >= 240, "{name}: {live} states in layer {steps}");
        }
    }
}
