//! Row 19 of the refusal table, of the overview too: a state from which no loop holding an arrow with most above
//! 0 can be reached. Each with the neighbour that passes.

use crate::bytes::chart::{arrow, Arrow, Chart, NO_END};
use crate::named::charts::{chart_row, single, List};
use crate::named::expected::{add, identity, loops, map, Expected};

/// One arrow without its ends: fewest and most.
type Slot = (u16, u16);
const STILL: Slot = (0, 0);

fn row(list: &mut List, name: &str, n: usize, arrows: Vec<Arrow>, number: u32, place: u32) {
    chart_row(list, name, Chart { labels: vec![0; n], arrows }.bytes(), number, place);
}

/// The row's example, and the one that it had before.
fn one_state(list: &mut List) {
    let mut test = |name: &str, slots: &[Slot], number| chart_row(list, name, single(0, slots), number, 0);
    test("row 19: a 0 to 0 self loop", &[STILL], 19);
    test("row 19 passed: slot 0 to 1", &[(0, 1)], 0);
    test("row 19 passed: slot 0 to 3, refused before", &[(0, 3)], 0);
    test("row 19 passed: slot 0 to no end", &[(0, NO_END)], 0);
    test("row 19 passed: slot 1 to 1", &[(1, 1)], 0);
    test("row 19: 0 to 0 twice", &[STILL; 2], 19);
    test("row 19 passed: 0 to 1 beside 0 to 0", &[(0, 1), STILL], 0);
    test("row 19 passed: 0 to 0 beside 0 to 1", &[STILL, (0, 1)], 0);
    test("row 19: 2,048 of 0 to 0", &[STILL; 2_048], 19);
    for (name, timed) in [("first", 0), ("last", 2_047)] {
        let mut slots = [STILL; 2_048];
        slots[timed] = (0, 1);
        test(&format!("row 19 passed: the {name} of 2,048 is 0 to 1"), &slots, 0);
    }
}

/// Two states that hand a job back and forth.
fn back_and_forth(list: &mut List) {
    let mut test = |name: &str, there: Slot, back: Slot, number| {
        row(list, name, 2, vec![arrow(0, 1, there.0, there.1), arrow(1, 0, back.0, back.1)], number, 0);
    };
    test("row 19: 0 to 0 each way", STILL, STILL, 19);
    test("row 19 passed: 0 to 3 each way", (0, 3), (0, 3), 0);
    test("row 19 passed: 0 to 0 there, 0 to 3 back", STILL, (0, 3), 0);
    test("row 19 passed: 0 to 3 there, 0 to 0 back", (0, 3), STILL, 0);
    test("row 19 passed: 0 to 0 there, 0 to no end back", STILL, (0, NO_END), 0);
    let beside = vec![arrow(0, 1, 0, 0), arrow(0, 1, 0, 2), arrow(1, 0, 0, 0)];
    row(list, "row 19 passed: 0 to 2 beside 0 to 0 there, 0 to 0 back", 2, beside, 0, 0);
}

/// An arrow with most above 0 that lies on no loop doesn't help.
fn on_no_loop(list: &mut List) {
    let mut test = |name: &str, n, arrows, number| row(list, name, n, arrows, number, 0);
    let then = |last: Slot| vec![arrow(0, 1, 1, 1), arrow(1, 1, last.0, last.1)];
    test("row 19: 1 to 1 to a 0 to 0 loop", 2, then(STILL), 19);
    test("row 19 passed: 1 to 1 to a 0 to 1 loop", 2, then((0, 1)), 0);
    let beside = [then(STILL), vec![arrow(2, 2, 0, 1)]].concat();
    test("row 19: 1 to 1 to a 0 to 0 loop, a 0 to 1 loop elsewhere", 3, beside, 19);
    let between = [vec![arrow(0, 0, 0, 0)], then(STILL)].concat();
    test("row 19: 1 to 1 between two 0 to 0 loops", 2, between.clone(), 19);
    let closed = [between, vec![arrow(1, 0, 0, 0)]].concat();
    test("row 19 passed: 1 to 1 between two 0 to 0 loops, and a way back", 2, closed, 0);
}

/// The place is the lowest state that can't reach such a loop, on whatever loop it is or isn't.
fn lowest(list: &mut List) {
    let mut test = |name: &str, n, arrows, number, place| row(list, name, n, arrows, number, place);
    let own = arrow(0, 0, 1, 1);
    let to_2 = |last: Slot| vec![own, arrow(1, 2, 5, 5), arrow(2, 2, last.0, last.1)];
    test("row 19: state 1 leads to the loop of 2", 3, to_2(STILL), 19, 1);
    test("row 19 passed: state 1 leads to a 0 to 1 loop of 2", 3, to_2((0, 1)), 0, 0);
    let either = [to_2(STILL), vec![arrow(1, 0, 0, 0)]].concat();
    test("row 19: state 1 leads to the loop of 0 too", 3, either.clone(), 19, 2);
    let left = [either, vec![arrow(2, 1, 0, 0)]].concat();
    test("row 19 passed: state 2 leads back to 1", 3, left, 0, 0);
    let after_0 = vec![arrow(0, 0, 0, 0), arrow(1, 0, 1, 1), arrow(1, 1, 1, 1)];
    test("row 19: state 0 alone, state 1 can stay away", 2, after_0, 19, 0);
    let ring = vec![own, arrow(3, 1, 0, 0), arrow(1, 2, 0, 0), arrow(2, 3, 0, 0), arrow(0, 3, 9, 9)];
    test("row 19: the ring of 1, 2 and 3", 4, ring, 19, 1);
    let last = vec![arrow(0, 1, 0, 0), arrow(1, 0, 0, 1), arrow(2, 1, 0, 0), arrow(3, 3, 0, 0)];
    test("row 19: state 3 of 4", 4, last, 19, 3);
}

/// Loops of 0 to 0 that can be left, and one that shares a state with another loop.
fn that_can_be_left(list: &mut List) {
    let mut test = |name: &str, n, arrows, number| row(list, name, n, arrows, number, 0);
    let one = |last: Slot| vec![arrow(0, 0, 0, 0), arrow(0, 1, 0, 0), arrow(1, 1, last.0, last.1)];
    test("row 19 passed: a 0 to 0 loop that can be left", 2, one((1, 1)), 0);
    test("row 19: a 0 to 0 loop that can be left for another", 2, one(STILL), 19);
    let two = |last: Slot| vec![arrow(0, 1, 0, 0), arrow(1, 0, 0, 0), arrow(1, 2, 0, 0), arrow(2, 2, last.0, last.1)];
    test("row 19 passed: a 0 to 0 loop of two that can be left", 3, two((0, NO_END)), 0);
    test("row 19: a 0 to 0 loop of two that can be left for another", 3, two(STILL), 19);
    let eight = |last: Slot| vec![arrow(0, 1, 0, 0), arrow(1, 0, 0, 0), arrow(0, 2, 0, 0), arrow(2, 0, last.0, last.1)];
    test("row 19 passed: two loops share a state, 0 to 1 on one", 3, eight((0, 1)), 0);
    test("row 19: two loops share a state, 0 to 0 on both", 3, eight(STILL), 19);
}

/// State i leads to state i + 1 in no time, the last one to `back` by the slot given.
fn line(back: usize, last: Slot) -> Chart {
    let mut chart = loops(256, 0);
    chart.arrows = (0..255).map(|i| arrow(i, i + 1, 0, 0)).collect();
    chart.arrows.push(arrow(255, back, last.0, last.1));
    chart
}

/// The states numbered from the other end, the arrows listed from the other end, or both; answers where state 255 went.
fn turned(mut chart: Chart, numbers: bool, list: bool) -> (Chart, u32) {
    if numbers {
        let number: Vec<usize> = (0..256).rev().collect();
        chart.renumber(&number);
    }
    if list {
        chart.arrows.reverse();
    }
    (chart, if numbers { 0 } else { 255 })
}

fn largest(list: &mut List) {
    let turns = [
        ("", false, false),
        (", listed back", false, true),
        (", numbered back", true, false),
        (", numbered and listed back", true, true),
    ];
    for (turn, numbered, listed) in turns {
        let mut test = |name: &str, chart: Chart, number, place: fn(u32) -> u32| {
            let (chart, last) = turned(chart, numbered, listed);
            chart_row(list, &format!("{name}{turn}"), chart.bytes(), number, place(last));
        };
        test("row 19 passed: 255 of 0 to 0 to a 0 to 1 loop", line(255, (0, 1)), 0, |_| 0);
        test("row 19: 255 of 0 to 0 to a 0 to 0 loop", line(255, STILL), 19, |_| 0);
        test("row 19 passed: a ring of 256, one arrow 0 to 1", line(0, (0, 1)), 0, |_| 0);
        test("row 19: a ring of 256, all 0 to 0", line(0, STILL), 19, |_| 0);
        let mut timed = line(255, STILL);
        timed.arrows[..255].iter_mut().for_each(|a| (a.fewest, a.most) = (1, 9));
        test("row 19: 255 of 1 to 9 to a 0 to 0 loop", timed, 19, |_| 0);
        let mut alone = loops(256, 2_048);
        alone.arrows.iter_mut().filter(|a| a.start == 255).for_each(|a| (a.fewest, a.most) = STILL);
        test("row 19: the last of 256 alone, eight of 0 to 0", alone.clone(), 19, |last| last);
        alone.arrows[1_023].most = 1;
        test("row 19 passed: the last of 256, one of eight 0 to 1", alone, 0, |_| 0);
    }
}

/// Each half of the states is a ring, and the lower one leads to the upper.
fn two_rings(list: &mut List) {
    let halves = |lower: Slot, upper: Slot| {
        let ring = |i: usize| if i % 128 < 127 { i + 1 } else { i - 127 };
        let slot = |i: usize| if i < 128 { lower } else { upper };
        let mut chart = loops(256, 0);
        chart.arrows = (0..256).map(|i| arrow(i, ring(i), slot(i).0, slot(i).1)).collect();
        chart.arrows.push(arrow(64, 192, 0, 0));
        chart.bytes()
    };
    chart_row(list, "row 19: two rings of 128, the upper 0 to 0", halves((1, 1), STILL), 19, 128);
    chart_row(list, "row 19 passed: two rings of 128, the lower 0 to 0", halves(STILL, (0, 1)), 0, 0);
}

/// The map says nothing of time: a detail inside its overview's slots may still meet row 19.
fn covered(list: &mut List) {
    let mut test = |name: &str, detail: &[Slot], overview: &[Slot], number, entry| {
        add(list, name, map(single(7, detail), single(7, overview), identity(1)), Expected::Outcome(number, 0, entry));
    };
    test("0 to 3 under 0 to 3", &[(0, 3)], &[(0, 3)], 0, 0);
    test("0 to 0 under 0 to 3", &[STILL], &[(0, 3)], 19, 1);
    test("0 to 0 and 1 to 3 under 0 to 3", &[STILL, (1, 3)], &[(0, 3)], 0, 0);
    test("0 to 3 under 0 to 2", &[(0, 3)], &[(0, 2)], 23, 1);
    test("0 to 3 under 0 to 0", &[(0, 3)], &[STILL], 19, 2);
    test("0 to 3 and 0 to 0 under the same", &[(0, 3), STILL], &[STILL, (0, 3)], 0, 0);
}

pub fn all(list: &mut List) {
    one_state(list);
    back_and_forth(list);
    on_no_loop(list);
    lowest(list);
    that_can_be_left(list);
    largest(list);
    two_rings(list);
    covered(list);
}
