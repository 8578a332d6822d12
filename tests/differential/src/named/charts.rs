//! Rows 1 to 9, 17 and 18 of the refusal table, each with the neighbour that passes; the order of rows.

use crate::bytes::chart::{arrow, Arrow, Chart, NO_END};
use crate::bytes::rule::{self, node, plain, A, LABEL, NOT, TRUE};
use crate::cases::case::Case;
use crate::named::expected::*;
use crate::random::damage::restate;

pub type List = Vec<Named>;

/// A chart in check, in count and in show, then as the detail and as the overview of a map check.
pub fn chart_row(list: &mut List, name: &str, chart: Vec<u8>, number: u32, place: u32) {
    let n = chart.get(5..7).map_or(0, |two| u16::from_be_bytes([two[0], two[1]]) as usize);
    let as_check = check(chart.clone(), rule::bytes(&just_true()), n, 4 * n);
    add(list, &format!("{name}, check"), as_check, accepted_or(number, place, 1));
    let as_count = count(chart.clone(), rule::bytes(&just_true()), n, 256 * n);
    add(list, &format!("{name}, count"), as_count, accepted_or(number, place, 1));
    let as_show = show((chart.clone(), rule::bytes(&just_true())), n, 257 * n, [0, 0], 6);
    add(list, &format!("{name}, show"), as_show, accepted_or(number, place, 1).then(NO_UNTIL));
    let as_detail = map(chart.clone(), chart.clone(), identity(n));
    add(list, &format!("{name}, detail"), as_detail, accepted_or(number, place, 1));
    if number != 0 {
        let as_overview = map(one().bytes(), chart, identity(1));
        add(list, &format!("{name}, overview"), as_overview, accepted_or(number, place, 2));
    }
}

/// Of a show of node 0, which is no until.
pub const NO_UNTIL: Expected = Expected::Outcome(60, 0, 3);

pub fn with_first(mut bytes: Vec<u8>, first: u8) -> Vec<u8> {
    bytes[0] = first;
    bytes
}

/// Of another length, which the bytes state or, if not `restated`, don't.
pub fn resized(mut bytes: Vec<u8>, length: usize, restated: bool) -> Vec<u8> {
    bytes.resize(length, 0);
    if restated {
        restate(&mut bytes);
    }
    bytes
}

fn chart_frame(list: &mut List) {
    let (short, one) = (short().bytes(), one().bytes());
    chart_row(list, "row 1: empty chart", vec![], 1, 0);
    chart_row(list, "row 1: 8 bytes", resized(one.clone(), 8, false), 1, 0);
    chart_row(list, "row 1 passed: 9 bytes of 19", resized(one.clone(), 9, false), 3, 0);
    chart_row(list, "row 1 passed: 19 bytes", one.clone(), 0, 0);
    for version in [0, 2, 255] {
        chart_row(list, "row 2: version not 1", with_first(short.clone(), version), 2, 0);
    }
    chart_row(list, "row 2 passed: first byte 01", with_first(short.clone(), 1), 0, 0);
    chart_row(list, "row 3: 39 stated, 40 lent", resized(short.clone(), 40, false), 3, 0);
    chart_row(list, "row 3: 39 stated, 38 lent", resized(short.clone(), 38, false), 3, 0);
    let mut far = short.clone();
    far[2] = 1;
    chart_row(list, "row 3: 65,575 stated, 39 lent", far, 3, 0);
    chart_row(list, "row 3 passed: 39 stated, 39 lent", short, 0, 0);
    chart_row(list, "row 6: n = 1, m = 1, 20 bytes", resized(one.clone(), 20, true), 6, 0);
    chart_row(list, "row 6: n = 1, m = 1, 18 bytes", resized(one.clone(), 18, true), 6, 0);
    chart_row(list, "row 6: 9 bytes", resized(one, 9, true), 6, 0);
}

fn chart_counts(list: &mut List) {
    chart_row(list, "row 4: n = 0", loops(0, 1).bytes(), 4, 0);
    chart_row(list, "row 4 passed: n = 1", loops(1, 1).bytes(), 0, 0);
    chart_row(list, "row 4 passed: n = 256", loops(256, 256).bytes(), 0, 0);
    chart_row(list, "row 4: n = 257", loops(257, 257).bytes(), 4, 0);
    chart_row(list, "row 5: m = 0", loops(1, 0).bytes(), 5, 0);
    chart_row(list, "row 5 passed: m = 1", loops(1, 1).bytes(), 0, 0);
    chart_row(list, "row 5 passed: m = 2,048", loops(1, 2_048).bytes(), 0, 0);
    chart_row(list, "row 5: m = 2,049", loops(1, 2_049).bytes(), 5, 0);
    chart_row(list, "longest chart", loops(256, 2_048).bytes(), 0, 0);
}

/// Short with one arrow changed.
fn short_with(at: usize, change: Arrow) -> Vec<u8> {
    let mut chart = short();
    chart.arrows[at] = change;
    chart.bytes()
}

fn chart_arrows(list: &mut List) {
    chart_row(list, "row 7: n = 3, end 3", short_with(1, arrow(1, 3, 0, 4)), 7, 1);
    chart_row(list, "row 7 passed: end 2", short_with(1, arrow(1, 2, 0, 4)), 0, 0);
    chart_row(list, "row 7: n = 3, start 3", short_with(2, arrow(3, 0, 20, 20)), 7, 2);
    chart_row(list, "row 7: end 65,535", short_with(0, arrow(0, 65_535, 5, 10)), 7, 0);
    chart_row(list, "row 8: slot 5 to 4", short_with(0, arrow(0, 1, 5, 4)), 8, 0);
    chart_row(list, "row 8 passed: slot 5 to 5", short_with(0, arrow(0, 1, 5, 5)), 0, 0);
    chart_row(list, "row 8: fewest 65,535", short_with(2, arrow(2, 0, NO_END, NO_END)), 8, 2);
    chart_row(list, "row 8 passed: 65,534 to no end", short_with(2, arrow(2, 0, 65_534, NO_END)), 0, 0);
    chart_row(list, "row 8 passed: 65,534 twice", short_with(2, arrow(2, 0, 65_534, 65_534)), 0, 0);
    let mut bare = Chart { labels: vec![0, 0], arrows: vec![arrow(0, 0, 1, 1)] };
    chart_row(list, "row 9: n = 2, one arrow 0 to 0", bare.bytes(), 9, 1);
    bare.arrows.push(arrow(1, 0, 1, 1));
    chart_row(list, "row 9 passed: an arrow 1 to 0 too", bare.bytes(), 0, 0);
    bare.arrows.remove(0);
    chart_row(list, "row 9: n = 2, one arrow 1 to 0", bare.bytes(), 9, 0);
}

/// Short with an arrow of 0 to 0 from state 1 to itself; if it is alone there, state 0 has a loop of its own.
fn short_looped(alone: bool) -> Chart {
    let mut chart = short();
    let looped = arrow(1, 1, 0, 0);
    if alone {
        chart.arrows[1] = looped;
        chart.arrows.push(arrow(0, 0, 1, 1));
    } else {
        chart.arrows.push(looped);
    }
    chart
}

/// A check of the chart with a three-node rule, given the lengths of marks and scratch.
fn lent_lengths(chart: &Chart, marks: usize, scratch: usize) -> Case {
    let nodes = [plain(TRUE, 0, 0), plain(LABEL, 2, 0), node(A, 1, 0, 1, 13)];
    check(chart.bytes(), rule::bytes(&nodes), marks, scratch)
}

fn buffers(list: &mut List) {
    let mut test = |name: &str, chart: &Chart, marks, scratch, expected| {
        add(list, name, lent_lengths(chart, marks, scratch), expected);
    };
    let refused = Expected::Outcome;
    let (short, left, locked) = (short(), short_looped(false), short_looped(true));
    test("row 17: n = k = 3, 8 bytes", &short, 8, 12, refused(17, 0, 5));
    test("row 17: no marks", &short, 0, 12, refused(17, 0, 5));
    test("row 17 passed: 9 bytes", &short, 9, 12, refused(0, 0, 0));
    test("row 17 passed: 10 bytes", &short, 10, 12, refused(0, 0, 0));
    test("row 18: n = 3, 11 numbers", &short, 9, 11, refused(18, 0, 5));
    test("row 18: no scratch", &short, 9, 0, refused(18, 0, 5));
    test("row 18 passed: 12 numbers", &short, 9, 12, refused(0, 0, 0));
    test("row 18 passed: 13 numbers", &short, 9, 13, refused(0, 0, 0));
    test("17 goes before 18 and 19", &locked, 8, 11, refused(17, 0, 5));
    test("18 goes before 19", &locked, 9, 11, refused(18, 0, 5));
    test("19 with longer buffers", &locked, 20, 30, refused(19, 1, 1));
    test("19 passed with longer buffers", &left, 20, 30, Expected::Marks("111001011"));
}

/// One state with the given label word and arrows to itself with the given slots.
pub fn single(label: u16, slots: &[(u16, u16)]) -> Vec<u8> {
    let arrows = slots.iter().map(|&(fewest, most)| arrow(0, 0, fewest, most)).collect();
    Chart { labels: vec![label], arrows }.bytes()
}

/// Two offenders against one row: the lowest is named.
fn lowest(list: &mut List) {
    let with = |change: &dyn Fn(&mut Arrow)| {
        let mut chart = short();
        chart.arrows[1..].iter_mut().for_each(change);
        chart.bytes()
    };
    chart_row(list, "row 7: arrows 1 and 2", with(&|a| a.end = 3), 7, 1);
    chart_row(list, "row 8: arrows 1 and 2", with(&|a| (a.fewest, a.most) = (5, 4)), 8, 1);
    chart_row(list, "row 9: states 1 and 2", with(&|a| a.start = 0), 9, 1);
    let mut still = with(&|a| (a.end, a.fewest, a.most) = (a.start, 0, 0));
    // State 0 leads to itself as well.
    still[18] = 0;
    let mut bare = still.clone();
    bare[16] = 1;
    chart_row(list, "row 9: state 0, beside loops of 0 to 0", bare, 9, 0);
    chart_row(list, "row 19: states 1 and 2", still, 19, 1);
}

/// Inputs that meet the conditions of two rows at once.
fn order(list: &mut List) {
    let bare = || Chart { labels: vec![0, 0], arrows: vec![arrow(0, 0, 0, 0)] }.bytes();
    add(list, "9 before 10", check(bare(), vec![], 0, 0), Expected::Outcome(9, 1, 1));
    let unused = rule::bytes(&[plain(TRUE, 0, 0), plain(TRUE, 0, 0)]);
    add(list, "16 before 17", check(short().bytes(), unused, 0, 0), Expected::Outcome(16, 0, 3));
    let both = vec![plain(NOT, 0, 0), plain(LABEL, 16, 0)];
    add(list, "14 before 15", Case::Kind { rule: rule::bytes(&both) }, Expected::Outcome(14, 1, 3));
    let mut chart = short();
    chart.arrows[0] = arrow(0, 1, 5, 4);
    chart.arrows[2] = arrow(2, 3, 1, 1);
    add(list, "7 before 8", check(chart.bytes(), vec![], 0, 0), Expected::Outcome(7, 2, 1));
    let still = || single(0, &[(0, 0)]);
    add(list, "19 before 1 of the overview", map(still(), vec![], vec![]), Expected::Outcome(19, 0, 1));
    add(list, "19 before 19 of the overview", map(still(), still(), identity(1)), Expected::Outcome(19, 0, 1));
    add(list, "1 of the overview before 20", map(one().bytes(), vec![], vec![]), Expected::Outcome(1, 0, 2));
    add(list, "19 of the overview before 20", map(one().bytes(), still(), vec![]), Expected::Outcome(19, 0, 2));
    add(list, "19 of the overview before 21", map(one().bytes(), still(), map_of(&[1])), Expected::Outcome(19, 0, 2));
    let other = single(1, &[(0, 0)]);
    add(
        list,
        "19 of the overview before 22 and 23",
        map(one().bytes(), other, identity(1)),
        Expected::Outcome(19, 0, 2),
    );
    let two = Chart { labels: vec![1, 2], arrows: vec![arrow(0, 1, 1, 1), arrow(1, 0, 1, 1)] }.bytes();
    let entries = map_of(&[1, 2]);
    add(list, "21 before 22", map(two.clone(), two.clone(), entries), Expected::Outcome(21, 1, 4));
    let slow = Chart { labels: vec![1, 4], arrows: vec![arrow(0, 1, 9, 9), arrow(1, 0, 1, 1)] }.bytes();
    add(list, "22 before 23", map(slow, two, identity(2)), Expected::Outcome(22, 1, 4));
}

pub fn all(list: &mut List) {
    chart_frame(list);
    chart_counts(list);
    chart_arrows(list);
    buffers(list);
    lowest(list);
    order(list);
}
