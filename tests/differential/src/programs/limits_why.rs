//! Runs that desk_why has to print: the paper's, those about the most steps, and the longest durations.

use crate::bytes::chart::{arrow, Chart, NO_END};
use crate::bytes::rule::{self, node, plain, Node, A, E, EXACTLY, LABEL, TRUE};
use crate::named::expected::{one, short};
use crate::named::passing::{handing, staying, turning};
use crate::programs::files::{Files, Pair};
use crate::programs::limits::{calls, files, List, SHORT_CALLS};
use crate::programs::why::Why;

/// A listing, what desk_test_calls prints and, where one alone is right, a run, for node 2 at the state.
fn add(list: &mut List, name: &str, files: Files, texts: [String; 2], state: usize, run: Option<&str>) {
    let why = Why { node: 2, state, written: run.map(String::from) };
    list.push(Pair { name: format!("why: {name}"), files, why, written: Some(texts) });
}

/// true until L(number)
fn eventually(operation: u8, kind: u8, number: usize, c: usize) -> Vec<Node> {
    vec![plain(TRUE, 0, 0), plain(LABEL, number, 0), node(operation, kind, 0, 1, c)]
}

fn of_short(list: &mut List) {
    let mut test = |name: &str, (operation, c): (u8, usize), marks: &str, state, run: &str| {
        let both = files(short().bytes(), rule::bytes(&eventually(operation, 1, 2, c)));
        let listing = format!("states 3 nodes 3\n0 111\n1 001\n2 {marks}\n");
        add(list, name, both, [listing, SHORT_CALLS.into()], state, Some(run));
    };
    let met = "0 at 0: 5 minutes to 1\n1 at 5: 0 minutes to 2\n2 at 5: until met at 5\n";
    test("E(true until L2, at most 5)", (E, 5), "111", 0, met);
    test("E, no step", (E, 5), "111", 2, "2 at 0: until met at 0\n");
    test("E, a state out of range", (E, 5), "111", 3, "refused 60 at 0 3\n");
    test("E, unmarked", (E, 4), "011", 0, "refused 60 at 0 3\n");
    test("A, marked", (A, 14), "111", 0, "refused 60 at 0 3\n");
    let late = "0 at 0: 10 minutes to 1\n1 at 10: 4 minutes to 2\n2 at 14: above 13\n";
    test("A, unmarked, at most 13", (A, 13), "011", 0, late);
}

/// Exactly so many minutes; A has no run.
fn exactly(list: &mut List) {
    let mut test = |name: &str, (operation, c): (u8, usize), marks: &str, state, run: Option<&str>| {
        let both = files(short().bytes(), rule::bytes(&eventually(operation, EXACTLY, 2, c)));
        let listing = format!("states 3 nodes 3\n0 111\n1 001\n2 {marks}\n");
        add(list, &format!("{name}, exactly {c}"), both, [listing, SHORT_CALLS.into()], state, run);
    };
    let met = "0 at 0: 10 minutes to 1\n1 at 10: 4 minutes to 2\n2 at 14: until met at 14\n";
    test("E", (E, 14), "100", 0, Some(met));
    test("E, several runs", (E, 8), "100", 0, None);
    test("E, no step", (E, 0), "011", 2, Some("2 at 0: until met at 0\n"));
    test("E, unmarked", (E, 15), "000", 0, Some("refused 60 at 0 3\n"));
    test("A, unmarked", (A, 14), "000", 0, Some("refused 60 at 0 3\n"));
    test("A, marked", (A, 0), "001", 2, Some("refused 60 at 0 3\n"));
}

/// From a state to itself alone: the fewest steps are the bound's.
fn of_one(list: &mut List) {
    let waited = |steps: usize| (0..steps).map(|i| format!("0 at {i}: 1 minutes to 0\n")).collect::<String>();
    let mut test = |name: &str, nodes: &[Node], marks: [u8; 3], run: &str| {
        let both = files(one().bytes(), rule::bytes(nodes));
        let [first, second, until] = marks;
        let listing = format!("states 1 nodes 3\n0 {first}\n1 {second}\n2 {until}\n");
        add(list, name, both, [listing, calls(&[], &one().arrows)], 0, Some(run));
    };
    let at_least = |c| [plain(TRUE, 0, 0), plain(TRUE, 0, 0), node(E, 2, 0, 1, c)];
    let exactly = |c| [plain(TRUE, 0, 0), plain(TRUE, 0, 0), node(E, EXACTLY, 0, 1, c)];
    test("255 steps, exactly", &exactly(255), [1, 1, 1], &(waited(255) + "0 at 255: until met at 255\n"));
    test("256 steps", &at_least(256), [1, 1, 1], &(waited(256) + "0 at 256: until met at 256\n"));
    test("above 256 steps", &at_least(257), [1, 1, 1], "refused 62 at 0 5\n");
    test("A, 256 steps", &eventually(A, 1, 0, 255), [1, 0, 0], &(waited(256) + "0 at 256: above 255\n"));
    test("A, above 256 steps", &eventually(A, 1, 0, 256), [1, 0, 0], "refused 62 at 0 5\n");
    let nowhere = [plain(LABEL, 0, 0), plain(LABEL, 1, 0), node(A, 1, 0, 1, 9)];
    test("A, neither operand", &nowhere, [0, 0, 0], "0 at 0: neither operand\n");
}

/// Fewest steps and not fewest minutes; then a duration that 16 bits don't hold, how long is free.
fn of_others(list: &mut List) {
    let arrows = vec![arrow(0, 1, 5, 5), arrow(0, 2, 0, 0), arrow(2, 1, 0, 0), arrow(1, 1, 1, 1)];
    let detour = Chart { labels: vec![0, 2, 0], arrows };
    let both = files(detour.bytes(), rule::bytes(&eventually(E, 1, 1, 5)));
    let texts = ["states 3 nodes 3\n0 111\n1 010\n2 111\n".into(), calls(&[], &detour.arrows)];
    add(list, "fewest steps", both, texts, 0, Some("0 at 0: 5 minutes to 1\n1 at 5: until met at 5\n"));
    let endless = Chart { labels: vec![0], arrows: vec![arrow(0, 0, 1, NO_END)] };
    let both = files(endless.bytes(), rule::bytes(&eventually(A, 1, 0, 65_535)));
    let texts = ["states 1 nodes 3\n0 1\n1 0\n2 0\n".into(), calls(&[], &endless.arrows)];
    add(list, "a duration above 65,535", both, texts, 0, None);
}

/// Loops that can be taken in no time; label 0 is at the last state.
fn in_no_time(list: &mut List) {
    let mut test = |name: &str, chart: Chart, (operation, kind, c), marks: &str, state, run: &str| {
        let both = files(chart.bytes(), rule::bytes(&eventually(operation, kind, 0, c)));
        let n = chart.states();
        let listing = format!("states {n} nodes 3\n0 {}\n1 {}1\n2 {marks}\n", "1".repeat(n), "0".repeat(n - 1));
        add(list, name, both, [listing, calls(&[], &chart.arrows)], state, Some(run));
    };
    let round = "1 at 0: 3 minutes to 0\n0 at 3: 3 minutes to 1\n1 at 6: until met at 6\n";
    test("0 to 3 each way, at least 6", handing((0, 3), (0, 3)), (E, 2, 6), "11", 1, round);
    let late = "0 at 0: 3 minutes to 1\n1 at 3: above 2\n";
    test("0 to 3 each way, A", handing((0, 3), (0, 3)), (A, 1, 2), "01", 0, late);
    test("staying 0 to 0, A, marked", staying((0, 0)), (A, 1, 0), "11", 0, "refused 60 at 0 3\n");
    test("staying 0 to 1, A", staying((0, 1)), (A, 1, 0), "01", 0, "0 at 0: 1 minutes to 0\n0 at 1: above 0\n");
    let out = "0 at 0: 0 minutes to 1\n1 at 0: 4 minutes to 2\n2 at 4: above 3\n";
    test("turning 0 to 0, A", turning((0, 0)), (A, 1, 3), "001", 0, out);
}

pub fn all(list: &mut List) {
    of_short(list);
    exactly(list);
    of_one(list);
    of_others(list);
    in_no_time(list);
}
