//! Read: what paper 5 say of single texts, and 64 beside neighbours that pass.

use crate::bytes::rule::{node, plain, Node, A, AND, E, LABEL, NOT, OR, TRUE};
use crate::named::charts::List;
use crate::named::expected::{add, read, Expected};

/// Enough for every rule.
const ROOM: usize = 519;

/// Refused with 64 at this byte.
fn stops(list: &mut List, text: impl AsRef<[u8]>, place: usize) {
    let name = format!("64: {}", String::from_utf8_lossy(text.as_ref()));
    add(list, &name, read(text, ROOM), Expected::Outcome(64, place as u32, 3));
}

/// Read as these nodes.
fn taken(list: &mut List, text: &str, nodes: Vec<Node>) {
    add(list, &format!("64 passed: {text}"), read(text, ROOM), Expected::Nodes(nodes));
}

fn yes() -> Node {
    plain(TRUE, 0, 0)
}

fn label(number: usize) -> Node {
    plain(LABEL, number, 0)
}

/// A(true U<=c L2)
fn within(c: usize) -> Vec<Node> {
    vec![yes(), label(2), node(A, 1, 0, 1, c)]
}

fn papers(list: &mut List) {
    let bytes = "010000001f000300000000000000000100000200000000060100000001000e";
    add(list, "the paper's text", read("A(true U<=14 L2)", 40), Expected::Rule(bytes));
    stops(list, "( L0 & L1)", 1);
    stops(list, "(L0)", 3);
    stops(list, "A(true U<=007 L2)", 11);
    stops(list, "A(true U<= L2)", 10);
    taken(list, "A(true U<=65535 L2)", within(65_535));
    stops(list, "A(true U<=65536 L2)", 14);
}

fn forms(list: &mut List) {
    taken(list, "true", vec![yes()]);
    taken(list, "!true", vec![yes(), plain(NOT, 0, 0)]);
    taken(list, "(L0 & true)", vec![label(0), yes(), plain(AND, 0, 1)]);
    taken(list, "(true | L0)", vec![yes(), label(0), plain(OR, 0, 1)]);
    for (letter, operation) in [("E", E), ("A", A)] {
        for (sign, kind) in [("<=", 1), (">=", 2), ("==", 3)] {
            let nodes = vec![label(3), label(4), node(operation, kind, 0, 1, 7)];
            taken(list, &format!("{letter}(L3 U{sign}7 L4)"), nodes);
        }
    }
}

/// Judged digit by digit.
fn numbers(list: &mut List) {
    for number in 0..=15 {
        taken(list, &format!("L{number}"), vec![label(number)]);
    }
    for number in 16..=99 {
        stops(list, format!("L{number}"), 2);
    }
    for (text, place) in [("L00", 2), ("L01", 2), ("L015", 2), ("L150", 3), ("L1 ", 2), ("L", 1), ("L-1", 1)] {
        stops(list, text, place);
    }
    for c in [0, 1, 9, 10, 14, 99, 100, 999, 1_000, 9_999, 10_000, 59_999, 64_999, 65_499, 65_529, 65_534] {
        taken(list, &format!("A(true U<={c} L2)"), within(c));
    }
    // The place of the last digit that could not go on.
    for (c, place) in [("65537", 14), ("65539", 14), ("65540", 14), ("65600", 14), ("66000", 14), ("70000", 14)] {
        stops(list, format!("A(true U<={c} L2)"), place);
    }
    for (c, place) in [("99999", 14), ("100000", 15), ("655350", 15), ("-1", 10), ("1.5", 11)] {
        stops(list, format!("A(true U<={c} L2)"), place);
    }
    for digit in 0..=9 {
        stops(list, format!("A(true U<=0{digit} L2)"), 11);
    }
    stops(list, "A(true U<=65536", 14);
    stops(list, "A(true U<=6553", 14);
}

/// "c above 255 there is refused": at the digit that no such bound goes on with.
fn exact_bounds(list: &mut List) {
    for c in [0, 1, 9, 10, 14, 25, 99, 100, 199, 200, 249, 250, 254, 255] {
        let nodes = vec![yes(), label(2), node(A, 3, 0, 1, c)];
        taken(list, &format!("A(true U=={c} L2)"), nodes);
    }
    for c in (256..=260).chain([300, 310, 399, 400, 999]) {
        stops(list, format!("A(true U=={c} L2)"), 12);
    }
    for c in ["1000", "1001", "2500", "2550", "2555"] {
        stops(list, format!("A(true U=={c} L2)"), 13);
    }
    for digit in 0..=9 {
        stops(list, format!("A(true U==0{digit} L2)"), 11);
        stops(list, format!("E(L0 U==255{digit} L1)"), 11);
    }
    stops(list, "A(E(L0 U==255 L1) U<=256 E(L1 U==256 L2))", 35);
}

/// The second "=" and the digits behind it, each where it is to stand.
fn exact_signs(list: &mut List) {
    for (text, place) in [
        ("A(true U==256", 12),
        ("A(true U==25", 12),
        ("A(true U==2", 11),
        ("A(true U==", 10),
        ("A(true U=", 9),
        ("A(true U=14 L2)", 9),
        ("A(true U=<14 L2)", 9),
        ("A(true U===14 L2)", 10),
        ("A(true U==-1 L2)", 10),
        ("A(true U== 14 L2)", 10),
        ("A(true U= =14 L2)", 9),
        ("A(true U ==14 L2)", 8),
        ("A(trueU==14 L2)", 6),
        ("A(true U==14L2)", 12),
        ("(L0U==256L1)", 3),
        ("(L0 U==5 L1)", 4),
    ] {
        stops(list, text, place);
    }
}

/// One on each side of &, | and the until with its bound, none elsewhere.
fn spaces(list: &mut List) {
    for (text, place) in [
        (" true", 0),
        ("! L0", 1),
        ("L 0", 1),
        ("(L0& L1)", 3),
        ("(L0  & L1)", 4),
        ("(L0 &L1)", 5),
        ("(L0 &  L1)", 6),
        ("(L0 & L1 )", 8),
        ("(L0 | L1) ", 9),
        ("E (L0 U<=3 L1)", 1),
        ("E( L0 U<=3 L1)", 2),
        ("E(L0U<=3 L1)", 4),
        ("E(L0  U<=3 L1)", 5),
        ("E(L0 U <=3 L1)", 6),
        ("E(L0 U< =3 L1)", 7),
        ("E(L0 U<= 3 L1)", 8),
        ("E(L0 U<=3L1)", 9),
        ("E(L0 U<=3  L1)", 10),
        ("E(L0 U<=3 L1 )", 12),
        ("E(L0 U<=3 L1) ", 13),
        ("(L0\t& L1)", 3),
    ] {
        stops(list, text, place);
    }
}

fn words(list: &mut List) {
    for (text, place) in [
        ("True", 0),
        ("TRUE", 0),
        ("tRue", 1),
        ("trux", 3),
        ("false", 0),
        ("l0", 0),
        ("-L0", 0),
        ("()", 1),
        ("((L0 & L1))", 10),
        ("L0 & L1", 2),
        ("(L0 & L1 & L2)", 8),
        ("(L0 && L1)", 5),
        ("(L0 U<=3 L1)", 4),
        ("E(L0 & L1)", 5),
        ("EL0", 1),
        ("E!L0", 1),
        ("E(L0 u<=3 L1)", 5),
        ("E(L0 U<3 L1)", 7),
        ("E(L0 U=<3 L1)", 7),
        ("E(L0 U<==3 L1)", 8),
        ("E(L0 U<=>3 L1)", 8),
    ] {
        stops(list, text, place);
    }
}

/// Bytes behind a formula, and texts that only stop early.
fn ends(list: &mut List) {
    stops(list, "", 0);
    for behind in [" ", "\n", "\r\n", "\0", ")", "!", "true", " & true"] {
        stops(list, format!("true{behind}"), 4);
        stops(list, format!("(L0 & L1){behind}"), 9);
    }
    let whole = "A((true | !L3) U<=14 E(L0 U>=65535 L12))";
    for length in 0..whole.len() {
        stops(list, &whole[..length], length);
    }
    add(list, "64 passed: the whole of it", read(whole, ROOM), Expected::Outcome(0, 0, 0));
}

/// Any byte may occur: where a formula begins, behind one, and in a bound.
fn bytes(list: &mut List) {
    for byte in 0..=255 {
        let begins = b"tL!(EA".contains(&byte);
        stops(list, [byte], usize::from(begins));
        stops(list, [b"true", &[byte][..]].concat(), 4);
        let goes_on = byte == b' ' || byte.is_ascii_digit();
        stops(list, [b"E(L0 U<=1", &[byte][..]].concat(), 9 + usize::from(goes_on));
    }
}

/// The left operand whole, then the right one, then the node.
fn left_first(list: &mut List) {
    let (left, right) = ([label(0), label(1), plain(AND, 0, 1)], [label(2), plain(NOT, 3, 0), plain(OR, 2, 4)]);
    taken(list, "((L0 & L1) | !L2)", [left, right].concat());
    let exchanged = vec![label(2), plain(NOT, 0, 0), label(0), label(1), plain(AND, 2, 3), plain(OR, 1, 4)];
    taken(list, "(!L2 | (L0 & L1))", exchanged);
    let (first, second) = ([label(1), label(3), node(E, 1, 0, 1, 2)], [label(5), label(7), node(E, 2, 3, 4, 6)]);
    let untils = [first.as_slice(), &second, &[node(A, 2, 2, 5, 4)]].concat();
    taken(list, "A(E(L1 U<=2 L3) U>=4 E(L5 U>=6 L7))", untils);
    taken(list, "!!!L15", vec![label(15), plain(NOT, 0, 0), plain(NOT, 1, 0), plain(NOT, 2, 0)]);
}

pub fn all(list: &mut List) {
    papers(list);
    forms(list);
    numbers(list);
    exact_bounds(list);
    exact_signs(list);
    spaces(list);
    words(list);
    ends(list);
    bytes(list);
    left_first(list);
}
