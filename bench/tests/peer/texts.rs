//! Rules typed as text and written back: every refusal with a neighbour that passes, and what is left in the output.

use crate::common::{node, on_a_large_stack, told, Told, LENT_MARK};
use bench::bytes::{self, Node};
use bench::peer::{self, Written};

/// What is written into so much output, or the refusal; the rest is as lent.
fn call(call: fn(&[u8], &mut [u8]) -> Written, given: impl AsRef<[u8]>, room: usize) -> Result<Vec<u8>, Told> {
    let mut output = vec![LENT_MARK; room];
    let Written { outcome, written } = call(given.as_ref(), &mut output);
    assert!(output[written..].iter().all(|&byte| byte == LENT_MARK));
    assert!(outcome.number == 0 || written == 0);
    match told(outcome) {
        (0, 0, 0) => Ok(output[..written].to_vec()),
        refused => Err(refused),
    }
}

fn read(text: impl AsRef<[u8]>) -> Result<Vec<u8>, Told> {
    call(peer::read_rule, text, 600)
}

fn write(nodes: &[Node]) -> Result<String, Told> {
    let text = call(peer::write_rule, bytes::rule(nodes), 600)?;
    Ok(String::from_utf8(text).expect("ASCII"))
}

fn yes() -> Node {
    node(0, 0, 0, 0, 0)
}

fn label(a: u16) -> Node {
    node(1, 0, a, 0, 0)
}

fn not(a: u16) -> Node {
    node(2, 0, a, 0, 0)
}

#[test]
fn each_form_there_and_back() {
    let trees: [(&str, &[Node]); 10] = [
        ("true", &[yes()]),
        ("!L15", &[label(15), not(0)]),
        ("(L0 & L9)", &[label(0), label(9), node(3, 0, 0, 1, 0)]),
        ("(L10 | true)", &[label(10), yes(), node(4, 0, 0, 1, 0)]),
        ("E(L0 U<=0 L1)", &[label(0), label(1), node(5, 1, 0, 1, 0)]),
        ("E(L0 U>=65535 L1)", &[label(0), label(1), node(5, 2, 0, 1, 65_535)]),
        ("A(true U<=14 L2)", &[yes(), label(2), node(6, 1, 0, 1, 14)]),
        ("E(true U==0 L2)", &[yes(), label(2), node(5, 3, 0, 1, 0)]),
        ("A(true U==255 L2)", &[yes(), label(2), node(6, 3, 0, 1, 255)]),
        ("A(!L1 U>=10 L1)", &[label(1), not(0), label(1), node(6, 2, 1, 2, 10)]),
    ];
    for (text, nodes) in trees {
        assert_eq!(read(text), Ok(bytes::rule(nodes)), "{text}");
        assert_eq!(write(nodes), Ok(text.to_string()));
    }
    let nested = [label(0), label(1), node(3, 0, 0, 1, 0), label(2), not(3), node(4, 0, 2, 4, 0)];
    assert_eq!(read("((L0 & L1) | !L2)"), Ok(bytes::rule(&nested)));
    assert_eq!(write(&[label(2), yes(), node(6, 1, 1, 0, 14)]), Ok("A(true U<=14 L2)".to_string()));
}

#[test]
fn no_formula_could_go_on() {
    for (text, place) in [
        ("", 0),
        ("x", 0),
        ("tru", 3),
        ("trux", 3),
        ("true ", 4),
        ("true\n", 4),
        ("L16", 2),
        ("L00", 2),
        ("L150", 3),
        ("( L0 & L1)", 1),
        ("(L0)", 3),
        ("(L0 &L1)", 5),
        ("(L0 & L1", 8),
        ("E(L0 & L1)", 5),
        ("A(true U=14 L2)", 9),
        ("A(true U=<14 L2)", 9),
        ("A(true U== L2)", 10),
        ("A(true U==00 L2)", 11),
        ("A(true U==256 L2)", 12),
        ("A(true U==300 L2)", 12),
        ("A(true U==1000 L2)", 13),
        ("A(true U==2550 L2)", 13),
        ("A(true U<= L2)", 10),
        ("A(true U<=007 L2)", 11),
        ("A(true U<=65536 L2)", 14),
        ("A(true U<=70000 L2)", 14),
        ("A(true U<=100000 L2)", 15),
        ("A(true U<=14 L2", 15),
    ] {
        assert_eq!(read(text), Err((64, place, 3)), "{text}");
    }
    assert_eq!(read([b'L', 0xB1]), Err((64, 1, 3)));
    assert!(read("A(true U<=65535 L2)").is_ok() && read("L15").is_ok());
}

fn nots(count: usize, rest: &str) -> String {
    "!".repeat(count) + rest
}

#[test]
fn too_much() {
    assert_eq!(read(nots(63, "true")).map(|rule| rule.len()), Ok(519));
    assert_eq!(read(nots(64, "true")), Err((65, 0, 3)));
    assert_eq!(read(nots(70, "x")), Err((64, 70, 3)));
    assert_eq!([read("?".repeat(4_096)), read("?".repeat(4_097))], [Err((64, 0, 3)), Err((65, 0, 3))]);
}

#[test]
fn as_deep_as_can_be() {
    on_a_large_stack(|| {
        assert_eq!([read(nots(4_096, "")), read(nots(4_097, ""))], [Err((64, 4_096, 3)), Err((65, 0, 3))]);
        assert_eq!(read("(".repeat(4_096)), Err((64, 4_096, 3)));
        assert_eq!(read("A(".repeat(2_048)), Err((64, 4_096, 3)));
        assert_eq!(read(nots(4_092, "true")), Err((65, 0, 3)));
    });
}

#[test]
fn output_short() {
    for (text, wanted) in [("true", 15), ("A(true U<=14 L2)", 31)] {
        let room = |room| call(peer::read_rule, text, room).map(|rule| rule.len());
        assert_eq!([room(wanted), room(wanted + 1)], [Ok(wanted); 2]);
        assert_eq!([room(wanted - 1), room(0)], [Err((66, 0, 5)); 2]);
        let rule = read(text).unwrap();
        let room = |room| call(peer::write_rule, &rule, room).map(|text| text.len());
        assert_eq!([room(text.len()), room(text.len() + 1)], [Ok(text.len()); 2]);
        assert_eq!([room(text.len() - 1), room(0)], [Err((66, 0, 5)); 2]);
    }
    assert_eq!(call(peer::read_rule, nots(64, "true"), 0), Err((65, 0, 3)));
    assert_eq!(call(peer::read_rule, "true ", 0), Err((64, 4, 3)));
}

#[test]
fn refused_rules() {
    let room = |rule: &[u8]| [0, 600].map(|room| call(peer::write_rule, rule, room));
    assert_eq!(room(&[]), [Err((10, 0, 3)), Err((10, 0, 3))]);
    assert_eq!(room(&bytes::rule(&[yes(), label(16)])), [Err((14, 1, 3)), Err((14, 1, 3))]);
    assert_eq!(room(&bytes::rule(&[not(0)])), [Err((15, 0, 3)), Err((15, 0, 3))]);
    assert_eq!(room(&bytes::rule(&[yes(), yes()])), [Err((16, 0, 3)), Err((16, 0, 3))]);
}
