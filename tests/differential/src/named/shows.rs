//! Show: the runs that the paper's charts have, and rows 60 to 62 of the refusal table, each with the neighbour that
//! passes.

use crate::bytes::chart::{arrow, Chart, NO_END};
use crate::bytes::rule::{self, node, plain, Node, A, AND, AT_LEAST, AT_MOST, E, LABEL, NOT, TRUE};
use crate::cases::case::Case;
use crate::named::charts::List;
use crate::named::expected::{add, loops, one, short, show, Expected};
use crate::named::passing::{handing, staying, turning};

/// true until L(number); node 2 is the until.
fn eventually(operation: u8, kind: u8, number: usize, c: usize) -> Vec<Node> {
    vec![plain(TRUE, 0, 0), plain(LABEL, number, 0), node(operation, kind, 0, 1, c)]
}

/// true until true
fn waiting(c: usize) -> Vec<Node> {
    vec![plain(TRUE, 0, 0), plain(TRUE, 0, 0), node(E, AT_LEAST, 0, 1, c)]
}

/// The last node at that state; marks and scratch are exactly long enough.
fn last(chart: &Chart, nodes: &[Node], state: usize, output: usize) -> Case {
    let n = chart.states();
    show((chart.bytes(), rule::bytes(nodes)), n * nodes.len(), 257 * n, [nodes.len() - 1, state], output)
}

fn papers(list: &mut List) {
    let case = last(&short(), &eventually(E, AT_MOST, 2, 5), 0, 18);
    add(list, "Short, E(true until L2, at most 5)", case, Expected::Run("000000000005000100000000000200000000"));
    let case = last(&short(), &eventually(A, AT_MOST, 2, 13), 0, 18);
    let run = "00000000000a000100000004000200000000";
    add(list, "Short, A(true until L2, at most 13): it ends where L2 holds", case, Expected::Run(run));
    add(list, "One, at least 256, output 1,542", last(&one(), &waiting(256), 0, 1_542), Expected::Steps(256));
    add(list, "One, at least 257, output 99,999", last(&one(), &waiting(257), 0, 99_999), Expected::Outcome(62, 0, 5));
    let arrows = vec![arrow(0, 1, 5, 5), arrow(0, 2, 0, 0), arrow(2, 1, 0, 0), arrow(1, 1, 1, 1)];
    let detour = Chart { labels: vec![0, 2, 0], arrows };
    let case = last(&detour, &eventually(E, AT_MOST, 1, 5), 0, 1_542);
    add(list, "fewest steps and not fewest minutes", case, Expected::Run("000000000005000100000000"));
    let case = last(&detour, &eventually(E, AT_MOST, 1, 4), 0, 1_542);
    add(list, "fewest steps within the bound", case, Expected::Run("000000000000000200000000000100000000"));
}

/// One case of Short and the paper's first rule, given node and state and the lengths of scratch and output.
fn asked(list: &mut List, name: &str, at: [usize; 2], scratch: usize, output: usize, expected: Expected) {
    let nodes = rule::bytes(&eventually(E, AT_MOST, 2, 5));
    add(list, name, show((short().bytes(), nodes), 9, scratch, at, output), expected);
}

fn out_of_range(list: &mut List) {
    let refused = || Expected::Outcome(60, 0, 3);
    asked(list, "row 60: node 3 of 3", [3, 0], 771, 18, refused());
    asked(list, "row 60 passed: node 2", [2, 0], 771, 18, Expected::Steps(2));
    asked(list, "row 60: state 3 of 3", [2, 3], 771, 18, refused());
    asked(list, "row 60 passed: state 2", [2, 2], 771, 18, Expected::Run("000200000000"));
    for far in [258, 65_538, (1 << 32) + 2, usize::MAX] {
        asked(list, &format!("row 60: node {far}"), [far, 0], 771, 18, refused());
        asked(list, &format!("row 60: state {far}"), [2, far], 771, 18, refused());
    }
    // t × n + s of these would be a mark of the until, or lie past the machine's numbers.
    asked(list, "row 60: node 0, state 6", [0, 6], 771, 18, refused());
    asked(list, "row 60: node and state the greatest", [usize::MAX, usize::MAX], 771, 18, refused());
}

/// Marks that have a run to be shown, and those that don't.
fn marks(list: &mut List) {
    let mut test = |name: &str, nodes: Vec<Node>, state, expected| {
        add(list, name, last(&short(), &nodes, state, 1_542), expected);
    };
    let refused = || Expected::Outcome(60, 0, 3);
    test("row 60: E at most, unmarked", eventually(E, AT_MOST, 2, 4), 0, refused());
    test("row 60: E at least, unmarked", eventually(E, AT_LEAST, 3, 0), 0, refused());
    test("row 60 passed: E at least, marked", eventually(E, AT_LEAST, 2, 5), 0, Expected::Steps(2));
    test("row 60: A at most, marked", eventually(A, AT_MOST, 2, 14), 0, refused());
    test("row 60 passed: A at most, unmarked", eventually(A, AT_MOST, 2, 13), 0, Expected::Steps(2));
    test("row 60: A at least, marked", eventually(A, AT_LEAST, 2, 5), 0, refused());
    test("row 60: A at least, unmarked", eventually(A, AT_LEAST, 3, 5), 0, refused());
    test("row 60: true", vec![plain(TRUE, 0, 0)], 0, refused());
    test("row 60: a label", vec![plain(LABEL, 0, 0)], 0, refused());
    test("row 60: a label that is not there", vec![plain(LABEL, 1, 0)], 0, refused());
    let over = |top| [eventually(E, AT_MOST, 2, 5), vec![top]].concat();
    test("row 60: not", over(plain(NOT, 2, 0)), 0, refused());
    let both = [eventually(E, AT_MOST, 2, 5), vec![plain(TRUE, 0, 0), plain(AND, 2, 3)]].concat();
    test("row 60: and", both, 0, refused());
}

fn buffers(list: &mut List) {
    let refused = |number, entry| Expected::Outcome(number, 0, entry);
    let mut test = |name: &str, at, scratch, output, expected| asked(list, name, at, scratch, output, expected);
    test("row 61: n = 3, 770 numbers", [2, 0], 770, 18, refused(61, 5));
    test("row 61: 12 numbers", [2, 0], 12, 18, refused(61, 5));
    test("row 61 passed: 771 numbers", [2, 0], 771, 18, Expected::Steps(2));
    test("row 61 passed: 772 numbers", [2, 0], 772, 18, Expected::Steps(2));
    test("18 goes before 60 to 62: 11 numbers", [3, 0], 11, 0, refused(18, 5));
    test("60 goes before 61 and 62", [3, 0], 770, 0, refused(60, 3));
    test("61 goes before 62", [2, 0], 770, 0, refused(61, 5));
    test("row 62: 17 bytes", [2, 0], 771, 17, refused(62, 5));
    test("row 62: 12 bytes", [2, 0], 771, 12, refused(62, 5));
    test("row 62: no output", [2, 0], 771, 0, refused(62, 5));
    test("row 62 passed: 18 bytes", [2, 0], 771, 18, Expected::Steps(2));
    test("row 62 passed: 19 bytes", [2, 0], 771, 19, Expected::Steps(2));
    test("row 62: a run of no step, 5 bytes", [2, 2], 771, 5, refused(62, 5));
    test("row 62: a run of no step, no output", [2, 2], 771, 0, refused(62, 5));
    test("row 62 passed: a run of no step, 6 bytes", [2, 2], 771, 6, Expected::Run("000200000000"));
    let still = Chart { labels: vec![0], arrows: vec![arrow(0, 0, 0, 0)] };
    add(list, "19 goes before 60", last(&still, &waiting(1), 1, 0), refused(19, 1));
    let nodes = rule::bytes(&eventually(E, AT_MOST, 2, 5));
    add(list, "17 goes before 60", show((short().bytes(), nodes), 8, 0, [3, 3], 0), refused(17, 5));
}

/// One state, an arrow of up to so many minutes to itself; A ends once its moment is above c.
fn long(list: &mut List) {
    let single = |most| Chart { labels: vec![0], arrows: vec![arrow(0, 0, 1, most)] };
    let nowhere = |c| eventually(A, AT_MOST, 0, c);
    let mut test = |name: &str, chart: Chart, nodes: Vec<Node>, output, expected| {
        add(list, name, last(&chart, &nodes, 0, output), expected);
    };
    test("A at most 255 in single minutes", single(1), nowhere(255), 1_542, Expected::Steps(256));
    test("A at most 256 in single minutes", single(1), nowhere(256), 1_543, Expected::Outcome(62, 0, 5));
    test("A at most 511 in twos", single(2), nowhere(511), 1_542, Expected::Steps(256));
    test("A at most 511 in twos, a byte short", single(2), nowhere(511), 1_541, Expected::Outcome(62, 0, 5));
    test("A at most 512 in twos", single(2), nowhere(512), 1_543, Expected::Outcome(62, 0, 5));
    // A slot without end is left behind in one step, by a duration that 16 bits don't hold.
    test("A at most 65,535, no end", single(NO_END), nowhere(65_535), 12, Expected::Steps(1));
    test("E at least 65,535, no end", single(NO_END), waiting(65_535), 12, Expected::Steps(1));
    test("E at least 65,535 in 65,534", single(65_534), waiting(65_535), 18, Expected::Steps(2));
    test("E at least 0", single(1), waiting(0), 6, Expected::Run("000000000000"));
    let ring = Chart { arrows: (0..256).map(|i| arrow(i, (i + 1) % 256, 1, 1)).collect(), ..loops(256, 0) };
    let mut line = ring.clone();
    line.labels[255] = 1;
    test("E at most 255, along 256 states", line.clone(), eventually(E, AT_MOST, 0, 255), 1_536, Expected::Steps(255));
    test("E at least 256, round 256 states", ring.clone(), waiting(256), 1_542, Expected::Steps(256));
    test("E at least 257, round 256 states", ring, waiting(257), 2_000, Expected::Outcome(62, 0, 5));
    let again = eventually(E, AT_LEAST, 0, 256);
    test("E at least 256, the last of 256 states twice", line, again, 4_000, Expected::Outcome(62, 0, 5));
}

/// Where the two operands hold, along a run.
fn operands(list: &mut List) {
    // 0 to 1 to 2 in one minute each, 2 for good; the label words as given.
    let along = |labels: [u16; 3]| {
        let arrows = vec![arrow(0, 1, 1, 1), arrow(1, 2, 1, 1), arrow(2, 2, 1, 1)];
        Chart { labels: labels.to_vec(), arrows }
    };
    let first_second =
        |operation, kind, c| vec![plain(LABEL, 0, 0), plain(LABEL, 1, 0), node(operation, kind, 0, 1, c)];
    let mut test = |name: &str, labels, nodes: Vec<Node>, expected| {
        add(list, name, last(&along(labels), &nodes, 0, 1_542), expected);
    };
    let two = "000000000001000100000001000200000000";
    test("E past states of both operands", [3, 3, 2], first_second(E, AT_LEAST, 2), Expected::Run(two));
    test("E not past the second alone", [3, 2, 2], first_second(E, AT_LEAST, 2), Expected::Outcome(60, 0, 3));
    test("A up to where neither holds", [1, 1, 0], first_second(A, AT_MOST, 9), Expected::Run(two));
    test("A, neither holds at once", [0, 3, 3], first_second(A, AT_MOST, 9), Expected::Run("000000000000"));
    test("A up to above c, the second there", [1, 1, 2], first_second(A, AT_MOST, 1), Expected::Run(two));
    test("A up to above c, both there", [1, 1, 3], first_second(A, AT_MOST, 1), Expected::Run(two));
    test("A up to above c, neither there", [1, 1, 0], first_second(A, AT_MOST, 1), Expected::Run(two));
    test("A met by the second alone", [1, 2, 0], first_second(A, AT_MOST, 1), Expected::Outcome(60, 0, 3));
}

/// Loops that can be taken in no time: a run goes round one only if time passes there, and never stays at one moment for
/// ever.
fn in_no_time(list: &mut List) {
    let mut test = |name: &str, chart: Chart, nodes: Vec<Node>, state, expected| {
        add(list, name, last(&chart, &nodes, state, 1_542), expected);
    };
    let (most, least) = (|c| eventually(A, AT_MOST, 0, c), |c| eventually(E, AT_LEAST, 0, c));
    let handed = || handing((0, 3), (0, 3));
    test("0 to 3 each way, A at most 2", handed(), most(2), 0, Expected::Run("000000000003000100000000"));
    test("0 to 3 each way, A at most 3, marked", handed(), most(3), 0, Expected::Outcome(60, 0, 3));
    test("0 to 3 each way, E at least 99 from 0", handed(), least(99), 0, Expected::Steps(33));
    test("0 to 3 each way, E at least 99 from 1", handed(), least(99), 1, Expected::Steps(34));
    let round = "000100000003000000000003000100000000";
    test("0 to 3 each way, E at least 6 from 1", handed(), least(6), 1, Expected::Run(round));
    test("staying 0 to 0, A at most 0, marked", staying((0, 0)), most(0), 0, Expected::Outcome(60, 0, 3));
    let stayed = "000000000001000000000000";
    test("staying 0 to 1, A at most 0", staying((0, 1)), most(0), 0, Expected::Run(stayed));
    test("staying 0 to 3, A at most 255", staying((0, 3)), most(255), 0, Expected::Steps(86));
    test("staying 0 to no end, A at most 65,535", staying((0, NO_END)), most(65_535), 0, Expected::Steps(1));
    let left = eventually(E, AT_MOST, 0, 0);
    test("staying 0 to 0, E at most 0", staying((0, 0)), left, 0, Expected::Run("000000000000000100000000"));
    test("staying 0 to 0, E at least 3", staying((0, 0)), least(3), 0, Expected::Steps(4));
    let out = "000000000000000100000004000200000000";
    test("turning 0 to 0, A at most 3 from 0", turning((0, 0)), most(3), 0, Expected::Run(out));
    test("turning 0 to 0, A at most 3 from 1", turning((0, 0)), most(3), 1, Expected::Run(&out[12..]));
    test("turning 0 to 0, A at most 4, marked", turning((0, 0)), most(4), 0, Expected::Outcome(60, 0, 3));
    let turned = "000000000001000100000004000200000000";
    test("turning 0 to 1, A at most 4 from 0", turning((0, 1)), most(4), 0, Expected::Run(turned));
    test("turning 0 to 1, A at most 4 from 1", turning((0, 1)), most(4), 1, Expected::Steps(3));
    let single = || Chart { labels: vec![0], arrows: vec![arrow(0, 0, 0, 1), arrow(0, 0, 0, 0)] };
    test("0 to 1 or 0 to 0, A at most 255", single(), most(255), 0, Expected::Steps(256));
    test("0 to 1 or 0 to 0, A at most 256", single(), most(256), 0, Expected::Outcome(62, 0, 5));
    test("0 to 1 or 0 to 0, E at least 256", single(), waiting(256), 0, Expected::Steps(256));
    test("0 to 1 or 0 to 0, E at least 257", single(), waiting(257), 0, Expected::Outcome(62, 0, 5));
}

pub fn all(list: &mut List) {
    papers(list);
    out_of_range(list);
    marks(list);
    buffers(list);
    long(list);
    operands(list);
    in_no_time(list);
}
