//! Refusal 64: "place the first byte that no formula could go on from, or the length if it only stops early".

use crate::text_call::read;

fn at(text: impl AsRef<[u8]>, place: u32) {
    let text = text.as_ref();
    assert_eq!(read(text), Err((64, place, 3)), "{}", String::from_utf8_lossy(text));
}

fn taken(text: &str) {
    assert!(read(text).is_ok(), "{text}");
}

/// Judged digit by digit: the longest beginning that could still become a number.
#[test]
fn numbers() {
    taken("L15");
    at("L16", 2);
    at("L20", 2);
    at("L00", 2);
    at("L01", 2);
    at("L150", 3);
    at("A(true U<=007 L2)", 11);
    at("A(true U<=00 L2)", 11);
    taken("A(true U<=0 L2)");
    at("A(true U<= L2)", 10);
    taken("A(true U<=65535 L2)");
    at("A(true U<=65536 L2)", 14);
    at("A(true U<=65540 L2)", 14);
    taken("A(true U<=65529 L2)");
    at("A(true U<=65600 L2)", 14);
    taken("A(true U<=65499 L2)");
    at("A(true U<=66000 L2)", 14);
    taken("A(true U<=64999 L2)");
    at("A(true U<=70000 L2)", 14);
    taken("A(true U<=59999 L2)");
    at("A(true U<=100000 L2)", 15);
    taken("A(true U<=9999 L2)");
}

/// "c above 255 there is refused with 64": `U==25` could go on, with no digit above 5.
#[test]
fn exact_bounds() {
    taken("A(true U==0 L2)");
    at("A(true U==00 L2)", 11);
    at("A(true U==007 L2)", 11);
    at("A(true U== L2)", 10);
    taken("A(true U==25 L2)");
    for c in 250..=255 {
        taken(&format!("A(true U=={c} L2)"));
    }
    for c in ["256", "259", "260", "300", "999"] {
        at(format!("A(true U=={c} L2)"), 12);
    }
    at("A(true U==1000 L2)", 13);
    at("A(true U==2550 L2)", 13);
    at("A(true U==256", 12);
    at("A(true U==25", 12);
    taken("A(true U<=256 L2)");
    at("A(true U=14 L2)", 9);
    at("A(true U=== L2)", 10);
    at("A(true U=<14 L2)", 9);
    at("A(true U=", 9);
    at("A(true U==14L2)", 12);
    at("A(true U ==14 L2)", 8);
    at("A(true U= =14 L2)", 9);
    at("A(true U== 14 L2)", 10);
}

#[test]
fn spaces() {
    taken("(L0 & L1)");
    at("( L0 & L1)", 1);
    at("(L0& L1)", 3);
    at("(L0  & L1)", 4);
    at("(L0 &L1)", 5);
    at("(L0 &  L1)", 6);
    at("(L0 & L1 )", 8);
    at(" (L0 & L1)", 0);
    at("! L0", 1);
    at("L 0", 1);
    at("(L0 | L1) ", 9);
    taken("E(L0 U<=3 L1)");
    at("E (L0 U<=3 L1)", 1);
    at("E( L0 U<=3 L1)", 2);
    at("E(L0U<=3 L1)", 4);
    at("E(L0 U <=3 L1)", 6);
    at("E(L0 U< =3 L1)", 7);
    at("E(L0 U<= 3 L1)", 8);
    at("E(L0 U<=3L1)", 9);
    at("E(L0 U<=3  L1)", 10);
    at("E(L0 U<=3 L1 )", 12);
    at("E(L0\tU<=3 L1)", 4);
}

#[test]
fn wrong_words() {
    at("(L0)", 3);
    at("((L0 & L1))", 10);
    at("L0 & L1", 2);
    at("(L0 & L1 & L2)", 8);
    at("(L0 && L1)", 5);
    at("(L0 U<=3 L1)", 4);
    at("E(L0 & L1)", 5);
    at("True", 0);
    at("tRue", 1);
    at("trux", 3);
    at("false", 0);
    at("l0", 0);
    at("(true)", 5);
    at("EL0", 1);
    at("E(L0 U<3 L1)", 7);
    at("E(L0 U=<3 L1)", 7);
    at("A(true U<==14 L2)", 10);
}

#[test]
fn bytes_behind_a_formula() {
    taken("true");
    at("true ", 4);
    at("true\n", 4);
    at("truetrue", 4);
    at("true)", 4);
    at("L1 ", 2);
    at("L15\n", 3);
    at("(L0 & L1)!", 9);
    at(b"true\0", 4);
}

/// Every beginning of a text only stops early, but those that are texts themselves.
#[test]
fn stops_early() {
    at("", 0);
    let text = "A((true | !L3) U<=14 E(L0 U>=65535 L12))";
    for length in 1..text.len() {
        at(&text[..length], length as u32);
    }
    taken(text);
    at("tru", 3);
    at("L", 1);
    taken("L1");
    taken("L12");
}

/// Any byte may occur: 80 to FF are bytes that no formula goes on from.
#[test]
fn bytes_that_are_not_ascii() {
    for byte in 0x80..=0xFF {
        at([byte], 0);
        at([b'L', byte], 1);
        at([b"true".as_slice(), &[byte]].concat(), 4);
        at([b"(L0 & ".as_slice(), &[byte]].concat(), 6);
        at([b"E(L0 U<=1".as_slice(), &[byte]].concat(), 9);
    }
    at("L²", 1);
}
