//! Marks of exact bounds, by check and by count: a moment equal to c, at which several positions may stand.

use crate::bytes::chart::{arrow, Arrow, Chart, NO_END};
use crate::bytes::rule::{node, plain, Node, A, AND, AT_LEAST, AT_MOST, E, EXACTLY, LABEL, NOT, OR, TRUE};
use crate::named::charts::List;
use crate::named::expected::{add, exact, exact_count, one, short, undo, Expected};
use crate::named::passing::{handing, staying};

/// Label words: label 0 stands for the first operand, label 1 for the second.
const NONE: u16 = 0;
const P: u16 = 1;
const Q: u16 = 2;
const BOTH: u16 = 3;

fn letter(operation: u8) -> &'static str {
    if operation == E {
        "E"
    } else {
        "A"
    }
}

/// The last node's marks.
fn marked(list: &mut List, name: &str, chart: &Chart, nodes: &[Node], marks: &'static str) {
    add(list, &format!("{name}, check"), exact(chart, nodes), Expected::Last(marks));
    add(list, &format!("{name}, count"), exact_count(chart, nodes), Expected::Last(marks));
}

/// One chart under exact untils: each with its c, and the marks.
struct Under<'a> {
    list: &'a mut List,
    name: &'a str,
    chart: Chart,
}

impl<'a> Under<'a> {
    fn of(list: &'a mut List, name: &'a str, labels: &[u16], arrows: &[Arrow]) -> Under<'a> {
        Under { list, name, chart: Chart { labels: labels.to_vec(), arrows: arrows.to_vec() } }
    }

    fn test(&mut self, first: Node, second: Node, operation: u8, c: usize, marks: &'static str) {
        let name = format!("{}: {} exactly {c}", self.name, letter(operation));
        let name = if first.operation == TRUE { format!("{name} of true") } else { name };
        marked(self.list, &name, &self.chart, &[first, second, node(operation, EXACTLY, 0, 1, c)], marks);
    }

    /// L0 until L1, by E and by A.
    fn labels(&mut self, c: usize, some: &'static str, all: &'static str) {
        self.test(plain(LABEL, 0, 0), plain(LABEL, 1, 0), E, c, some);
        self.test(plain(LABEL, 0, 0), plain(LABEL, 1, 0), A, c, all);
    }

    /// true until that label, by E and by A.
    fn always(&mut self, label: usize, c: usize, some: &'static str, all: &'static str) {
        self.test(plain(TRUE, 0, 0), plain(LABEL, label, 0), E, c, some);
        self.test(plain(TRUE, 0, 0), plain(LABEL, label, 0), A, c, all);
    }
}

fn papers(list: &mut List) {
    let mut under = Under { list, name: "Short", chart: short() };
    under.always(2, 0, "011", "001");
    under.always(2, 4, "010", "000");
    under.always(2, 5, "100", "000");
    under.always(2, 14, "100", "000");
    under.always(2, 15, "000", "000");
    under.always(2, 25, "011", "000");
    under.always(2, 26, "011", "000");
    under.always(2, 255, "111", "000");
    let mut under = Under { list, name: "Undo", chart: undo() };
    under.always(2, 15, "110", "000");
    under.always(2, 1, "010", "000");
    let mut under = Under { list, name: "One", chart: one() };
    under.always(0, 0, "0", "0");
    for c in [0, 1, 254, 255] {
        under.test(plain(TRUE, 0, 0), plain(TRUE, 0, 0), E, c, "1");
        under.test(plain(TRUE, 0, 0), plain(TRUE, 0, 0), A, c, "1");
    }
}

/// State 1 is come to at moment 3 already and left in no time, listed along the run and against it.
fn at_moment_c(list: &mut List) {
    let along = [arrow(0, 1, 3, 3), arrow(1, 2, 0, 0), arrow(2, 2, 1, 1)];
    let against = [along[2], along[1], along[0]];
    for (listed, arrows) in [("", along), (", listed back", against)] {
        let name = |what: &str| format!("3 minutes, then none{listed}, {what}");
        let mut under = |name: &str, labels: [u16; 3], tests: &[(usize, &'static str, &'static str)]| {
            let mut under = Under::of(list, name, &labels, &arrows);
            tests.iter().for_each(|&(c, some, all)| under.labels(c, some, all));
        };
        under(&name("no P between"), [P, NONE, Q], &[(3, "000", "000"), (0, "001", "001"), (2, "000", "000")]);
        under(&name("P between"), [P, P, Q], &[(3, "100", "100"), (0, "011", "011"), (4, "000", "000")]);
        under(&name("Q between"), [P, Q, NONE], &[(3, "100", "100"), (0, "010", "010")]);
        under(&name("Q between, then P"), [P, Q, P], &[(3, "100", "100")]);
        under(&name("both at the end"), [P, P, BOTH], &[(3, "111", "111"), (4, "111", "111"), (2, "011", "011")]);
    }
    Under::of(list, "3 minutes, then none", &[P, NONE, Q], &along).always(1, 3, "111", "111");
}

/// Four positions at one moment: Q may hold at any of them, if P does at those before.
fn several_at_moment_c(list: &mut List) {
    let slots = |last: u16| [arrow(0, 1, 2, 2), arrow(1, 2, 0, 0), arrow(2, 3, 0, last), arrow(3, 3, 1, 1)];
    let mut test = |name: &str, labels: [u16; 4], last: u16, c, some, all| {
        Under::of(list, name, &labels, &slots(last)).labels(c, some, all);
    };
    test("Q at the last of the moment", [P, P, P, Q], 0, 2, "1000", "1000");
    test("Q in the middle of the moment", [P, P, Q, NONE], 0, 2, "1000", "1000");
    test("Q at the first of the moment", [P, Q, NONE, NONE], 0, 2, "1000", "1000");
    test("a gap within the moment", [P, P, NONE, Q], 0, 2, "0000", "0000");
    test("Q at the last of the moment, if it is not late", [P, P, P, Q], 1, 2, "1000", "0000");
    test("Q a minute late or not", [P, P, P, BOTH], 1, 3, "1111", "1111");
}

/// Runs whose moments leave c out, or may.
fn jumps(list: &mut List) {
    let twos = [arrow(0, 1, 2, 2), arrow(1, 1, 2, 2)];
    let mut under = Under::of(list, "by twos", &[P, BOTH], &twos);
    under.labels(0, "01", "01");
    under.labels(1, "00", "00");
    under.labels(3, "00", "00");
    under.labels(4, "11", "11");
    under.labels(254, "11", "11");
    under.labels(255, "00", "00");
    let mut under = Under::of(list, "1 or 2, then by twos", &[P, BOTH], &[arrow(0, 1, 1, 2), arrow(1, 1, 2, 2)]);
    under.labels(3, "10", "00");
    under.labels(4, "11", "01");
    let mut under = Under::of(list, "1 or 2, then by ones", &[P, BOTH], &[arrow(0, 1, 1, 2), arrow(1, 1, 1, 1)]);
    under.labels(1, "11", "01");
    under.labels(2, "11", "11");
    under.labels(255, "11", "11");
    let mut under = Under::of(list, "past 255 at once", &[P, BOTH], &[arrow(0, 1, 256, 300), arrow(1, 1, 1, 1)]);
    under.labels(255, "01", "01");
    under.labels(0, "01", "01");
    let mut under = Under::of(list, "a state for every minute", &[P, BOTH, BOTH, BOTH], &ring_of_ones());
    under.labels(0, "0111", "0111");
    under.labels(4, "0111", "0111");
    under.labels(6, "1101", "1101");
}

/// 0 to 1 to 2 to 3 to 0, a minute each.
fn ring_of_ones() -> [Arrow; 4] {
    [0, 1, 2, 3].map(|i| arrow(i, (i + 1) % 4, 1, 1))
}

/// A exactly is not "at most and at least", and E exactly is neither.
fn not_both_bounds(list: &mut List) {
    let chart = Chart { labels: vec![NONE, Q], arrows: vec![arrow(0, 1, 1, 1), arrow(1, 1, 2, 2)] };
    for (operation, marks) in [(A, "01"), (E, "01")] {
        let of = |kind, t| node(operation, kind, t, t + 1, 2);
        let twice = [plain(TRUE, 0, 0), plain(LABEL, 1, 0)];
        let both = [&twice[..], &[of(AT_MOST, 0)], &twice, &[of(AT_LEAST, 3), plain(AND, 2, 5)]].concat();
        let name = format!("{} at most 2 and at least 2", letter(operation));
        marked(list, &name, &chart, &both, "11");
        let exactly = [&twice[..], &[of(EXACTLY, 0)]].concat();
        marked(list, &format!("{} exactly 2 beside it", letter(operation)), &chart, &exactly, marks);
    }
}

/// Stays in no time and stays in which time can pass, before moment c and at it.
fn stays(list: &mut List) {
    let at_c = |most| [arrow(0, 1, 3, 3), arrow(1, 1, 0, most), arrow(1, 2, 0, 0), arrow(2, 2, 1, 1)];
    let mut under = Under::of(list, "a 0 to 0 stay at moment c", &[P, P, Q], &at_c(0));
    under.labels(3, "100", "100");
    under.labels(0, "011", "011");
    under.labels(1, "000", "000");
    let mut under = Under::of(list, "a 0 to 1 stay at moment c", &[P, P, Q], &at_c(1));
    under.labels(3, "110", "000");
    under.labels(0, "011", "001");
    under.labels(255, "110", "000");
    let mut under = Under::of(list, "a 0 to no end stay at moment c", &[P, P, Q], &at_c(NO_END));
    under.labels(3, "110", "000");
    under.labels(255, "110", "000");
    let mut under = Under { list, name: "staying 0 to 0", chart: staying((0, 0)) };
    under.always(0, 0, "11", "11");
    under.always(0, 5, "11", "11");
    let mut under = Under { list, name: "staying 0 to 1", chart: staying((0, 1)) };
    under.always(0, 0, "11", "01");
    under.always(0, 5, "11", "01");
    let mut under = Under { list, name: "0 to 3 each way", chart: handing((0, 3), (0, 3)) };
    under.always(0, 0, "11", "01");
    under.always(0, 7, "11", "00");
    let turns = [arrow(0, 1, 0, 0), arrow(1, 0, 0, 0), arrow(1, 2, 0, 0), arrow(2, 2, 1, 1)];
    let mut under = Under::of(list, "turning in no time", &[P, P, Q], &turns);
    under.labels(0, "111", "111");
    under.labels(1, "000", "000");
    let mut under = Under::of(list, "turning in no time, no Q", &[P, P, P], &turns);
    under.labels(0, "000", "000");
    under.labels(3, "000", "000");
}

/// Two ways at moment c: one to Q, the other to a state without P, or with P alone.
fn two_ways(list: &mut List) {
    let arrows = [arrow(0, 1, 2, 2), arrow(0, 2, 2, 2), arrow(1, 1, 1, 1), arrow(2, 2, 1, 1)];
    let mut test = |name: &str, other: u16, some, all| {
        Under::of(list, &format!("Q or {name} at moment c"), &[P, other, Q], &arrows).labels(2, some, all);
    };
    test("neither", NONE, "100", "000");
    test("P alone", P, "100", "000");
    test("Q", Q, "100", "100");
    let mut under =
        Under::of(list, "Q alone too early", &[P, Q, BOTH], &[arrow(0, 1, 1, 1), arrow(1, 2, 1, 1), arrow(2, 2, 1, 1)]);
    under.labels(2, "001", "001");
    under.labels(1, "101", "101");
}

fn without_end(list: &mut List) {
    let slot = |fewest| [arrow(0, 1, fewest, NO_END), arrow(1, 1, 1, 1)];
    let mut under = Under::of(list, "0 to no end", &[P, Q], &slot(0));
    under.labels(0, "11", "01");
    for c in [1, 127, 128, 254, 255] {
        under.labels(c, "10", "00");
    }
    under.always(1, 255, "11", "01");
    let mut under = Under::of(list, "255 to no end", &[P, Q], &slot(255));
    under.labels(254, "00", "00");
    under.labels(255, "10", "00");
    let mut under = Under::of(list, "256 to no end", &[P, Q], &slot(256));
    under.labels(0, "01", "01");
    under.labels(255, "00", "00");
}

/// All 256 states at one moment, numbered along the way and against it.
fn largest(list: &mut List) {
    let mut arrows: Vec<Arrow> = (0..255).map(|i| arrow(i, i + 1, 0, 0)).collect();
    arrows.extend([arrow(0, 0, 1, 1), arrow(255, 255, 1, 1)]);
    let along = Chart { labels: [vec![P; 255], vec![Q]].concat(), arrows };
    let mut against = along.clone();
    against.renumber(&(0..256).rev().collect::<Vec<_>>());
    let (one, zero) = (|n| "1".repeat(n), |n| "0".repeat(n));
    let rows: [&'static str; 4] =
        [one(1) + &zero(255), zero(255) + &one(1), zero(1) + &one(255), one(255) + &zero(1)].map(|row| &*row.leak());
    let (ones, zeros): (&'static str, &'static str) = (one(256).leak(), zero(256).leak());
    let mut under = Under { list, name: "256 states at one moment", chart: along };
    under.labels(255, rows[0], zeros);
    under.labels(0, ones, rows[2]);
    let mut under = Under { list, name: "256 states at one moment, numbered back", chart: against };
    under.labels(255, rows[1], zeros);
    under.labels(0, ones, rows[3]);
}

/// Exact bounds among others, as operands and over them.
fn mixed(list: &mut List) {
    let eventually =
        |operation, kind, c, t| [plain(TRUE, 0, 0), plain(LABEL, 2, 0), node(operation, kind, t, t + 1, c)];
    let mut test = |name: &str, nodes: &[Node], marks| marked(list, name, &short(), nodes, marks);
    let joined = |last| [&eventually(E, EXACTLY, 14, 0)[..], &eventually(A, AT_MOST, 13, 3), &[last]].concat();
    test("E exactly 14 or A at most 13", &joined(plain(OR, 2, 5)), "111");
    test("E exactly 14 and A at most 13", &joined(plain(AND, 2, 5)), "000");
    let twice = [&eventually(E, EXACTLY, 14, 0)[..], &eventually(E, EXACTLY, 25, 3), &[plain(OR, 2, 5)]].concat();
    test("E exactly 14 or 25", &twice, "111");
    let never = [&eventually(E, EXACTLY, 14, 0)[..], &eventually(A, EXACTLY, 15, 3), &[plain(OR, 2, 5)]].concat();
    test("E exactly 14 or A exactly 15", &never, "100");
    let under = |last: Node| [&eventually(E, EXACTLY, 14, 0)[..], &[plain(TRUE, 0, 0), last]].concat();
    test("E at least 25 of E exactly 14", &under(node(E, AT_LEAST, 3, 2, 25)), "111");
    test("A at most 20 of E exactly 14", &under(node(A, AT_MOST, 3, 2, 20)), "100");
    test("E exactly 20 of E exactly 14", &under(node(E, EXACTLY, 3, 2, 20)), "011");
    test("A exactly 0 of E exactly 14", &under(node(A, EXACTLY, 3, 2, 0)), "100");
    let over = [&eventually(E, AT_MOST, 0, 0)[..], &[plain(TRUE, 0, 0), node(E, EXACTLY, 3, 2, 5)]].concat();
    test("E exactly 5 of E at most 0", &over, "100");
    let not = [&eventually(A, EXACTLY, 0, 0)[..], &[plain(NOT, 2, 0)]].concat();
    test("not A exactly 0", &not, "110");
}

pub fn all(list: &mut List) {
    papers(list);
    at_moment_c(list);
    several_at_moment_c(list);
    jumps(list);
    not_both_bounds(list);
    stays(list);
    two_ways(list);
    without_end(list);
    largest(list);
    mixed(list);
}
