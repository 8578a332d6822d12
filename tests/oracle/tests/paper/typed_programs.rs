//! What desk_rule prints and writes, and what desk_text prints.

use crate::formulas::{nots, some_formula};
use crate::make::{label, not, rule, true_l2, Numbers, A, AT_MOST, E, TRUE};
use oracle::{rule_text, typed_rule, TypedRule, TEXT_READ};

/// A rule is written and nothing printed.
fn writes(input: &str, file: Vec<u8>) {
    let TypedRule { printed, file: written } = typed_rule(input.as_bytes());
    assert_eq!((printed, written), (vec![], Some(file)), "{input:?}");
}

/// No file is written.
fn prints(input: impl AsRef<[u8]>, text: impl AsRef<[u8]>) {
    let TypedRule { printed, file } = typed_rule(input.as_ref());
    assert_eq!((printed.as_slice(), file), (text.as_ref(), None));
}

#[test]
fn a_text_with_and_without_its_newline() {
    writes("A(true U<=14 L2)\n", true_l2(A, AT_MOST, 14));
    writes("A(true U<=14 L2)", true_l2(A, AT_MOST, 14));
    writes("L15\n", rule(&[label(15)]));
    prints("true\n\n", "refused 64 at 4 3\ntrue?\n    ^\n");
    prints("true\r\n", "refused 64 at 4 3\ntrue?\n    ^\n");
    prints("true\nL1", "refused 64 at 4 3\ntrue?L1\n    ^\n");
}

#[test]
fn the_place_is_pointed_at() {
    prints("L16\n", "refused 64 at 2 3\nL16\n  ^\n");
    prints("A(true U<=007 L2)", "refused 64 at 11 3\nA(true U<=007 L2)\n           ^\n");
    prints("A(true", "refused 64 at 6 3\nA(true\n      ^\n");
    prints("x\n", "refused 64 at 0 3\nx\n^\n");
    prints("", "refused 64 at 0 3\n\n^\n");
    prints("\n", "refused 64 at 0 3\n\n^\n");
    prints("\n\n", "refused 64 at 0 3\n?\n^\n");
}

/// Below 32 and 127 as ?, every other byte as it is.
#[test]
fn bytes_that_are_not_shown() {
    let every: Vec<u8> = (0..=255).collect();
    let shown = [[b'?'; 32].as_slice(), &every[32..127], b"?", &every[128..]].concat();
    prints(&every, [b"refused 64 at 0 3\n", shown.as_slice(), b"\n^\n"].concat());
    prints(b"!\x7F\x80\n", b"refused 64 at 1 3\n!?\x80\n ^\n");
}

#[test]
fn the_limits() {
    let longest = nots(63, "true");
    let TypedRule { printed, file } = typed_rule(longest.as_bytes());
    assert_eq!((printed.len(), file.map(|rule| rule.len())), (0, Some(519)));
    prints(nots(64, "true\n"), format!("refused 65 at 0 3\n{}\n^\n", nots(64, "true")));
    let (text, spaces) = (nots(4_096, ""), " ".repeat(4_096));
    prints(&text, format!("refused 64 at 4096 3\n{text}\n{spaces}^\n"));
    prints(format!("{text}\n"), format!("refused 64 at 4096 3\n{text}\n{spaces}^\n"));
}

/// Of a longer input no byte is looked at, a newline behind those read neither.
#[test]
fn the_first_4_098_bytes() {
    let refused = |shown: &str| format!("refused 65 at 0 3\n{shown}\n^\n");
    assert_eq!(TEXT_READ, 4_098);
    prints(nots(4_097, ""), refused(&nots(4_097, "")));
    prints(nots(4_097, "\n"), refused(&nots(4_097, "")));
    prints(nots(4_097, "\nL0\n"), refused(&nots(4_097, "")));
    prints(nots(4_096, "\n\n"), refused(&nots(4_096, "?")));
    prints(nots(4_096, "\nL0\n"), refused(&nots(4_096, "?L")));
    prints(nots(4_098, ""), refused(&nots(4_098, "")));
    prints(nots(4_098, "\n"), refused(&nots(4_098, "")));
    prints(nots(9_000, ""), refused(&nots(4_098, "")));
}

#[test]
fn desk_text() {
    assert_eq!(rule_text(&true_l2(A, AT_MOST, 14)), b"A(true U<=14 L2)\n");
    assert_eq!(rule_text(&rule(&[label(1), TRUE, (E, 2, 1, 0, 0)])), b"E(true U>=0 L1)\n");
    assert_eq!(rule_text(&[]), b"refused 10 at 0 3\n");
    assert_eq!(rule_text(&rule(&[TRUE, label(16), not(0)])), b"refused 14 at 1 3\n");
}

/// A 65th node is cut short by the reading, so that its rule states another length than was read.
#[test]
fn the_first_520_bytes() {
    assert_eq!(rule_text(&rule(&[TRUE; 65])), b"refused 12 at 0 3\n");
    let longest = [vec![TRUE], (0..63).map(not).collect()].concat();
    assert_eq!(rule_text(&rule(&longest)), format!("{}\n", nots(63, "true")).into_bytes());
    assert_eq!(rule_text(&[rule(&longest), vec![0; 9]].concat()), b"refused 12 at 0 3\n");
}

/// No rule's text is longer than the room: 66 is never printed.
#[test]
fn room_for_the_longest_text() {
    let mut nodes = vec![TRUE];
    for t in (1..62).step_by(2) {
        nodes.extend([TRUE, (E, AT_MOST, t - 1, t, 65_535)]);
    }
    nodes.push(not(62));
    assert_eq!(rule_text(&rule(&nodes)).len(), 532 + 1);
    let mut numbers = Numbers(59);
    for _ in 0..500 {
        let formula = some_formula(&mut numbers, 64);
        assert_eq!(rule_text(&formula.rule(&mut || true)), format!("{}\n", formula.text()).into_bytes());
    }
}
