//! Show: runs of a marked E exactly, of the fewest steps and not of the fewest minutes; A exactly has none.

use crate::bytes::chart::{arrow, Arrow, Chart, NO_END};
use crate::bytes::rule::{self, node, plain, Node, A, E, EXACTLY, LABEL, TRUE};
use crate::cases::case::Case;
use crate::named::charts::List;
use crate::named::expected::{add, loops, one, short, show, undo, Expected};

/// true until that label.
fn always(operation: u8, label: usize, c: usize) -> [Node; 3] {
    [plain(TRUE, 0, 0), plain(LABEL, label, 0), node(operation, EXACTLY, 0, 1, c)]
}

/// L0 until L1.
fn labels(operation: u8, c: usize) -> [Node; 3] {
    [plain(LABEL, 0, 0), plain(LABEL, 1, 0), node(operation, EXACTLY, 0, 1, c)]
}

/// true until true.
fn waiting(c: usize) -> [Node; 3] {
    [plain(TRUE, 0, 0), plain(TRUE, 0, 0), node(E, EXACTLY, 0, 1, c)]
}

/// Node 2 at that state; marks and scratch are exactly long enough.
fn asked(chart: &Chart, nodes: [Node; 3], state: usize, output: usize) -> Case {
    let n = chart.states();
    show((chart.bytes(), rule::bytes(&nodes)), 3 * n, 257 * n, [2, state], output)
}

const NO_SUCH_MARK: Expected = Expected::Outcome(60, 0, 3);
const NO_RUN: Expected = Expected::Outcome(62, 0, 5);

fn papers(list: &mut List) {
    let mut test = |name: &str, chart: Chart, nodes, state, expected| {
        add(list, name, asked(&chart, nodes, state, 1_542), expected);
    };
    let at_14 = Expected::Run("00000000000a000100000004000200000000");
    test("Short, E exactly 14", short(), always(E, 2, 14), 0, at_14);
    test("Short, E exactly 5", short(), always(E, 2, 5), 0, Expected::Run("000000000005000100000000000200000000"));
    test("Short, E exactly 8", short(), always(E, 2, 8), 0, Expected::Steps(2));
    test("Short, E exactly 0 from 1", short(), always(E, 2, 0), 1, Expected::Run("000100000000000200000000"));
    test("Short, E exactly 0 from 2", short(), always(E, 2, 0), 2, Expected::Run("000200000000"));
    test("Short, E exactly 25 from 2", short(), always(E, 2, 25), 2, Expected::Steps(3));
    test("Short, E exactly 26 from 1", short(), always(E, 2, 26), 1, Expected::Steps(4));
    test("Undo, E exactly 15", undo(), always(E, 2, 15), 0, Expected::Steps(4));
    test("Short, E exactly 15, unmarked", short(), always(E, 2, 15), 0, NO_SUCH_MARK);
    test("Short, A exactly 5, unmarked", short(), always(A, 2, 5), 0, NO_SUCH_MARK);
    test("Short, A exactly 0, marked", short(), always(A, 2, 0), 2, NO_SUCH_MARK);
    test("Short, A exactly 0, unmarked, no such label", short(), always(A, 9, 0), 0, NO_SUCH_MARK);
}

/// 0 to 1 in 5 minutes, or by way of 2 in none; at 1 one may stay a minute at a time.
fn fewest_steps(list: &mut List) {
    let arrows = vec![arrow(0, 1, 5, 5), arrow(0, 2, 0, 0), arrow(2, 1, 0, 0), arrow(1, 1, 1, 1)];
    let detour = Chart { labels: vec![0, 2, 0], arrows };
    let mut test = |c, expected| {
        add(list, &format!("detour, E exactly {c}"), asked(&detour, always(E, 1, c), 0, 1_542), expected);
    };
    test(0, Expected::Run("000000000000000200000000000100000000"));
    test(1, Expected::Steps(3));
    test(4, Expected::Steps(6));
    test(5, Expected::Run("000000000005000100000000"));
    test(6, Expected::Run("000000000005000100000001000100000000"));
    test(255, Expected::Steps(251));
}

/// Along 0, 1 and 2: P is asked at every earlier position, at moment c too.
fn earlier_positions(list: &mut List) {
    let line = |second: (u16, u16)| vec![arrow(0, 1, 3, 3), arrow(1, 2, second.0, second.1), arrow(2, 2, 1, 1)];
    let mut test = |name: &str, words: [u16; 3], arrows: Vec<Arrow>, c, expected| {
        let chart = Chart { labels: words.to_vec(), arrows };
        add(list, &format!("{name}, E exactly {c}"), asked(&chart, labels(E, c), 0, 1_542), expected);
    };
    let two = Expected::Run("000000000003000100000000000200000000");
    test("P at a position of moment c", [1, 1, 2], line((0, 0)), 3, two);
    test("no P at a position of moment c", [1, 0, 2], line((0, 0)), 3, NO_SUCH_MARK);
    test("Q at the first position of moment c", [1, 2, 2], line((0, 0)), 3, Expected::Run("000000000003000100000000"));
    let early = Expected::Run("000000000003000100000001000200000000");
    test("both before moment c", [3, 3, 2], line((1, 1)), 4, early);
    test("Q alone before moment c", [3, 2, 2], line((1, 1)), 4, NO_SUCH_MARK);
    test("the slot's last minute", [1, 1, 2], line((1, 4)), 7, Expected::Run("000000000003000100000004000200000000"));
    test("a minute past the slot", [1, 1, 2], line((1, 4)), 8, NO_SUCH_MARK);
}

/// From 0 to Q at 4 by three steps of a minute, or shorter: by way of 1 in 3 minutes and none, or at once in 2 minutes.
fn shortcuts(list: &mut List) {
    let arrows = vec![
        arrow(0, 1, 3, 3),
        arrow(1, 4, 0, 0),
        arrow(0, 2, 1, 1),
        arrow(2, 3, 1, 1),
        arrow(3, 4, 1, 1),
        arrow(0, 4, 2, 2),
        arrow(4, 4, 1, 1),
    ];
    let by_ones = || Expected::Run("000000000001000200000001000300000001000400000000");
    let mut test = |name: &str, word_of_1: u16, word_of_4: u16, c, expected| {
        let chart = Chart { labels: vec![1, word_of_1, 1, 1, word_of_4], arrows: arrows.clone() };
        add(list, &format!("{name}, E exactly {c}"), asked(&chart, labels(E, c), 0, 1_542), expected);
    };
    test("a shortcut without P at moment c", 0, 2, 3, by_ones());
    test("a shortcut with P at moment c", 1, 2, 3, Expected::Run("000000000003000100000000000400000000"));
    test("a shortcut that ends at moment c", 2, 2, 3, Expected::Run("000000000003000100000000"));
    test("a shortcut that comes early", 0, 2, 2, Expected::Run("000000000002000400000000"));
    test("a shortcut that comes early and stays", 0, 3, 3, Expected::Run("000000000002000400000001000400000000"));
}

/// Steps in no time make a run long though c is at most 255.
fn long(list: &mut List) {
    let mut test = |name: &str, chart: &Chart, c, state, output, expected| {
        add(list, &format!("{name}, E exactly {c}, {output} bytes"), asked(chart, waiting(c), state, output), expected);
    };
    test("single minutes", &one(), 255, 0, 1_536, Expected::Steps(255));
    test("single minutes", &one(), 255, 0, 1_535, NO_RUN);
    test("single minutes", &one(), 0, 0, 6, Expected::Run("000000000000"));
    test("single minutes", &one(), 0, 0, 5, NO_RUN);
    let turns = Chart { labels: vec![0; 2], arrows: vec![arrow(0, 1, 1, 1), arrow(1, 0, 0, 0)] };
    test("by turns in no time, from 0", &turns, 128, 0, 1_542, Expected::Steps(255));
    test("by turns in no time, from 1", &turns, 128, 1, 1_542, Expected::Steps(256));
    test("by turns in no time, from 1", &turns, 128, 1, 1_541, NO_RUN);
    test("by turns in no time, from 0", &turns, 129, 0, 99_999, NO_RUN);
    test("by turns in no time, from 1", &turns, 255, 1, 99_999, NO_RUN);
    let mut ring = loops(256, 0);
    ring.arrows = (0..256).map(|i| arrow(i, (i + 1) % 256, 0, u16::from(i == 255))).collect();
    test("a ring of 256, a minute at its end", &ring, 1, 0, 1_542, Expected::Steps(256));
    test("a ring of 256, a minute at its end", &ring, 2, 0, 99_999, NO_RUN);
    test("a ring of 256, a minute at its end", &ring, 0, 0, 6, Expected::Steps(0));
    let open = Chart { labels: vec![0], arrows: vec![arrow(0, 0, 2, NO_END)] };
    test("2 to no end", &open, 255, 0, 12, Expected::Run("0000000000ff000000000000"));
    test("2 to no end", &open, 1, 0, 1_542, NO_SUCH_MARK);
}

pub fn all(list: &mut List) {
    papers(list);
    fewest_steps(list);
    earlier_positions(list);
    shortcuts(list);
    long(list);
}
