//! Counts whose marks turn at one minute: bounds at both ends of a slot, and arrows of no time in a row. Exact bounds by
//! check too.

use crate::bytes::chart::{arrow, Chart, NO_END};
use crate::bytes::rule::{A, AT_LEAST, AT_MOST, E, EXACTLY};
use crate::named::charts::List;
use crate::named::counts::first_until_second;
use crate::named::expected::{add, exact, exact_count, Expected};

const UNTILS: [(u8, u8, &str); 6] = [
    (E, AT_MOST, "E at most"),
    (E, AT_LEAST, "E at least"),
    (A, AT_MOST, "A at most"),
    (A, AT_LEAST, "A at least"),
    (E, EXACTLY, "E exactly"),
    (A, EXACTLY, "A exactly"),
];

/// L0 until L1.
fn counted(list: &mut List, name: &str, chart: &Chart, (operation, kind): (u8, u8), c: usize, marks: &'static str) {
    let nodes = first_until_second(operation, kind, c);
    add(list, name, exact_count(chart, &nodes), Expected::Last(marks));
    if kind == EXACTLY {
        add(list, &format!("{name}, check"), exact(chart, &nodes), Expected::Last(marks));
    }
}

/// State 0 leads to state 1 by one arrow of this slot; label 0 at state 0, label 1 at state 1.
fn window(list: &mut List, slot: (u16, u16), until: usize, c: usize, marks: &'static str) {
    let chart = Chart { labels: vec![1, 2], arrows: vec![arrow(0, 1, slot.0, slot.1), arrow(1, 1, 1, 1)] };
    let (operation, kind, until) = UNTILS[until];
    let most = if slot.1 == NO_END { "no end".into() } else { slot.1.to_string() };
    counted(list, &format!("{} to {most}, {until} {c}", slot.0), &chart, (operation, kind), c, marks);
}

/// A minute below the slot, at its fewest, at its most, a minute above; by `UNTILS`.
const WIDE: [[&str; 4]; 6] = [
    ["01", "11", "11", "11"],
    ["10", "10", "10", "00"],
    ["01", "01", "11", "11"],
    ["10", "10", "00", "00"],
    ["00", "10", "10", "00"],
    ["00", "00", "00", "00"],
];
const SINGLE: [[&str; 3]; 6] = [
    ["01", "11", "11"],
    ["10", "10", "00"],
    ["01", "11", "11"],
    ["10", "10", "00"],
    ["00", "10", "00"],
    ["00", "10", "00"],
];
/// A minute below, at the fewest, and under the greatest bound.
const NO_MOST: [[&str; 3]; 6] = [
    ["01", "11", "11"],
    ["10", "10", "10"],
    ["01", "01", "01"],
    ["10", "10", "00"],
    ["00", "10", "10"],
    ["00", "00", "00"],
];
/// At the fewest, which is 0, and a minute above it.
const FROM_0: [[&str; 2]; 6] = [["11", "11"], ["11", "10"], ["01", "01"], ["11", "00"], ["11", "10"], ["01", "00"]];

fn windows(list: &mut List) {
    let mut test = |slot, bounds: &[usize], until, marks: &[&'static str]| {
        for (c, marks) in bounds.iter().zip(marks) {
            window(list, slot, until, *c, marks);
        }
    };
    for until in 0..UNTILS.len() {
        test((4, 7), &[3, 4, 7, 8], until, &WIDE[until]);
        test((253, 254), &[252, 253, 254, 255], until, &WIDE[until]);
        test((254, 255), &[253, 254, 255], until, &WIDE[until]);
        test((5, 5), &[4, 5, 6], until, &SINGLE[until]);
        test((255, 255), &[254, 255], until, &SINGLE[until]);
        test((4, NO_END), &[3, 4, 255], until, &NO_MOST[until]);
        test((256, NO_END), &[255], until, &NO_MOST[until]);
        // Past eight bits, where the bounds end.
        test((4, 260), &[3, 4, 255], until, &NO_MOST[until]);
        test((0, 9), &[0, 1], until, &FROM_0[until]);
    }
}

/// State i leads to state i + 1 by one arrow of slot i, the last one to itself; label 1 there, label 0 at the others.
fn line(slots: &[(u16, u16)]) -> Chart {
    let last = slots.len();
    let mut arrows: Vec<_> = slots.iter().enumerate().map(|(i, slot)| arrow(i, i + 1, slot.0, slot.1)).collect();
    arrows.push(arrow(last, last, 1, 1));
    let mut labels = vec![1; last];
    labels.push(2);
    Chart { labels, arrows }
}

/// The same, with the states numbered from the other end.
fn back(mut chart: Chart) -> Chart {
    let number: Vec<usize> = (0..chart.states()).rev().collect();
    chart.renumber(&number);
    chart
}

/// Under E and A alike, with the arrows listed along the line and against it, and the states numbered along it and
/// against it: so that no order of going over them does it in one round.
fn lined(list: &mut List, name: &str, slots: &[(u16, u16)], kind: u8, c: usize, marks: [&'static str; 2]) {
    let numbered = [("", line(slots)), (", numbered back", back(line(slots)))];
    for ((numbers, along), marks) in numbered.into_iter().zip(marks) {
        let mut against = along.clone();
        against.arrows.reverse();
        for (listed, chart) in [("along the list", &along), ("against the list", &against)] {
            for (operation, _, until) in UNTILS.into_iter().filter(|until| until.1 == kind) {
                counted(list, &format!("{name}, {listed}{numbers}, {until} {c}"), chart, (operation, kind), c, marks);
            }
        }
    }
}

fn no_time(list: &mut List) {
    let none = (0, 0);
    let (at_once, late, twice) =
        ([none; 4], [none, none, none, (2, 2)], [(2, 2), none, none, none, (1, 1), none, none, none]);
    lined(list, "no time", &at_once, AT_MOST, 0, ["11111"; 2]);
    lined(list, "no time", &at_once, AT_LEAST, 0, ["11111"; 2]);
    lined(list, "no time", &at_once, AT_LEAST, 1, ["00000"; 2]);
    lined(list, "no time, then 2", &late, AT_MOST, 1, ["00001", "10000"]);
    lined(list, "no time, then 2", &late, AT_MOST, 2, ["11111"; 2]);
    lined(list, "no time, then 2", &late, AT_LEAST, 2, ["11110", "01111"]);
    lined(list, "no time, then 2", &late, AT_LEAST, 3, ["00000"; 2]);
    lined(list, "no time, twice", &twice, AT_MOST, 0, ["000001111", "111100000"]);
    lined(list, "no time, twice", &twice, AT_MOST, 2, ["011111111", "111111110"]);
    lined(list, "no time, twice", &twice, AT_MOST, 3, ["111111111"; 2]);
    lined(list, "no time, twice", &twice, AT_LEAST, 1, ["111110000", "000011111"]);
    lined(list, "no time, twice", &twice, AT_LEAST, 3, ["100000000", "000000001"]);
    lined(list, "no time", &at_once, EXACTLY, 0, ["11111"; 2]);
    lined(list, "no time", &at_once, EXACTLY, 1, ["00000"; 2]);
    lined(list, "no time, then 2", &late, EXACTLY, 1, ["00000"; 2]);
    lined(list, "no time, then 2", &late, EXACTLY, 2, ["11110", "01111"]);
    lined(list, "no time, then 2", &late, EXACTLY, 3, ["00000"; 2]);
    lined(list, "no time, twice", &twice, EXACTLY, 0, ["000001111", "111100000"]);
    lined(list, "no time, twice", &twice, EXACTLY, 1, ["011110000", "000011110"]);
    lined(list, "no time, twice", &twice, EXACTLY, 2, ["000000000"; 2]);
    lined(list, "no time, twice", &twice, EXACTLY, 3, ["100000000", "000000001"]);
}

/// An arrow of 0 to 1 stays within the minute, or doesn't.
fn no_time_at_will(list: &mut List) {
    let chart = line(&[(0, 1); 3]);
    let mut test = |until: usize, c: usize, marks| {
        let (operation, kind, name) = UNTILS[until];
        counted(list, &format!("0 to 1 in a row, {name} {c}"), &chart, (operation, kind), c, marks);
    };
    test(0, 0, "1111");
    test(1, 3, "1000");
    test(1, 4, "0000");
    test(2, 0, "0001");
    test(2, 2, "0111");
    test(2, 3, "1111");
    test(3, 0, "1111");
    test(3, 1, "0000");
    test(4, 0, "1111");
    test(4, 1, "1110");
    test(4, 3, "1000");
    test(4, 4, "0000");
    test(5, 0, "0001");
    test(5, 1, "0000");
}

/// All states in one row of no time, under the greatest bound.
fn longest_row(list: &mut List) {
    let chart = line(&[(0, 0); 255]);
    for (name, chart) in [("along the list", chart.clone()), ("numbered back", back(chart))] {
        let case = exact_count(&chart, &first_until_second(E, AT_MOST, 255));
        add(list, &format!("256 states in no time, {name}"), case, Expected::Outcome(0, 0, 0));
    }
}

pub fn all(list: &mut List) {
    windows(list);
    no_time(list);
    no_time_at_will(list);
    longest_row(list);
}
