//! Lines of states on which every run takes the same minutes, just so many up to the last state; at times one slot or one
//! label is a little off. So an exact until along every run is marked, or just isn't.

use crate::bytes::chart::{arrow, Arrow, Chart, NO_END};
use crate::random::rng::Rng;
use crate::random::timed_lines::ordered;
use crate::random::timelocks::let_time_pass;

/// The minutes of so many steps, whose sum is c; many take none.
fn minutes(rng: &mut Rng, steps: usize, c: usize) -> Vec<usize> {
    let none = rng.pick(&[0, 30, 60, 90]);
    let mut moments = vec![0; steps];
    for at in 1..steps {
        let anywhere = rng.within(moments[at - 1], c);
        moments[at] = if rng.percent(none) { moments[at - 1] } else { anywhere };
    }
    moments.push(c);
    moments.windows(2).map(|two| two[1] - two[0]).collect()
}

/// State i leads to state i + 1; at times twice, round itself in no time, or back over a step that takes none.
fn arrows(rng: &mut Rng, minutes: &[usize]) -> Vec<Arrow> {
    let mut made = Vec::new();
    for (start, &taken) in minutes.iter().enumerate() {
        let onward = arrow(start, start + 1, taken as u16, taken as u16);
        made.push(onward);
        match rng.below(12) {
            0 => made.push(onward),
            1 => made.push(arrow(start, start, 0, 0)),
            2 if taken == 0 => made.push(arrow(start + 1, start, 0, 0)),
            _ => {}
        }
    }
    let (fewest, most) = rng.pick(&[(1, 1), (1, 1), (0, 1), (2, 2), (1, 4), (1, NO_END)]);
    made.push(arrow(minutes.len(), minutes.len(), fewest, most));
    made
}

/// A state of any labels beside the line: from somewhere on it one step that takes just as long as the rest of the line,
/// and a last one in no time.
fn shortcut(rng: &mut Rng, chart: &mut Chart, minutes: &[usize]) {
    let (start, beside) = (rng.below(minutes.len()), chart.states());
    let rest = minutes[start..].iter().sum::<usize>() as u16;
    chart.labels.push(rng.pick(&[0, 0, 1, 2, 3]));
    chart.arrows.extend([arrow(start, beside, rest, rest), arrow(beside, minutes.len(), 0, 0)]);
}

/// A slot a minute wider at either end, no label 0 at a state, or label 1 at another.
fn off(rng: &mut Rng, chart: &mut Chart) {
    let (at, state) = (rng.below(chart.arrows.len()), rng.below(chart.states()));
    let slot = &mut chart.arrows[at];
    match rng.below(4) {
        0 if slot.most < NO_END => slot.most += 1,
        1 => slot.fewest = slot.fewest.saturating_sub(1),
        2 => chart.labels[state] &= !1,
        _ => chart.labels[state] |= 2,
    }
}

/// A line that passes 19, with label 0 before its last state and label 1 there.
pub fn random(rng: &mut Rng, c: usize) -> Chart {
    let steps = rng.within(1, 9);
    let minutes = minutes(rng, steps, c);
    let labels = [vec![1; steps], vec![rng.pick(&[2, 3])]].concat();
    let mut chart = Chart { labels, arrows: arrows(rng, &minutes) };
    if rng.percent(30) {
        shortcut(rng, &mut chart, &minutes);
    }
    if rng.percent(40) {
        off(rng, &mut chart);
    }
    let_time_pass(rng, &mut chart);
    let mut number: Vec<usize> = (0..chart.states()).collect();
    ordered(rng, &mut number);
    chart.renumber(&number);
    ordered(rng, &mut chart.arrows);
    chart
}

#[cfg(test)]
mod tests {
    use super::random;
    use crate::bytes::rule::{self, node, plain, A, E, EXACTLY, LABEL};
    use crate::random::rng::Rng;

    /// How many of the lines have states where label 0 alone stands that are marked, and that are not.
    fn marked(operation: u8) -> [usize; 2] {
        let (rng, mut lines) = (&mut Rng::new(6), [0; 2]);
        for c in (0..256).cycle().take(1_000) {
            let chart = random(rng, c);
            let (n, nodes) =
                (chart.states(), [plain(LABEL, 0, 0), plain(LABEL, 1, 0), node(operation, EXACTLY, 0, 1, c)]);
            let mut marks = vec![0; 3 * n];
            let outcome = oracle::check(&chart.bytes(), &rule::bytes(&nodes), &mut marks, &mut vec![0; 256 * n]);
            assert_eq!(outcome.number, 0);
            let open = (0..n).filter(|&s| chart.labels[s] == 1);
            let own: Vec<usize> = open.map(|s| usize::from(marks[2 * n + s])).collect();
            (0..2).for_each(|mark| lines[mark] += usize::from(own.contains(&mark)));
        }
        lines
    }

    #[test]
    fn both_marks_of_both_untils_are_many() {
        for operation in [E, A] {
            let [unmarked, marked] = marked(operation);
            assert!(marked > 300 && unmarked > 300, "{operation}: {marked} marked, {unmarked} unmarked");
        }
    }
}
