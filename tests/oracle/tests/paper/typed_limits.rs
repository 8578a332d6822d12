//! The limits of 65, the room of 66, and the order of reading's refusals.

use crate::formulas::{nots, some_formula};
use crate::make::Numbers;
use crate::text_call::{read, read_into};

/// Left operands, or right ones, in one another up to just so many bytes.
fn nested(length: usize, left: bool) -> String {
    let deep = (length - 2) / 7;
    let text = match left {
        true => "(".repeat(deep) + "L1" + &" & L1)".repeat(deep),
        false => "(L1 & ".repeat(deep) + "L1" + &")".repeat(deep),
    };
    nots(length - text.len(), &text)
}

#[test]
fn above_64_nodes() {
    assert!(read(nots(63, "true")).is_ok());
    assert_eq!(read(nots(64, "true")), Err((65, 0, 3)));
    let mut numbers = Numbers(51);
    for _ in 0..200 {
        assert!(read(some_formula(&mut numbers, 64).text()).is_ok());
        assert_eq!(read(some_formula(&mut numbers, 65).text()), Err((65, 0, 3)));
    }
}

/// Only a whole text of the grammar has nodes to count.
#[test]
fn no_limit_plays_a_part_in_64() {
    assert_eq!(read(nots(70, "x")), Err((64, 70, 3)));
    assert_eq!(read(nots(70, "")), Err((64, 70, 3)));
    assert_eq!(read(nots(70, "L16")), Err((64, 72, 3)));
    assert_eq!(read(nots(70, "true ")), Err((64, 74, 3)));
    assert_eq!(read(nots(4_096, "")), Err((64, 4_096, 3)));
    assert_eq!(read(nots(4_095, "?")), Err((64, 4_095, 3)));
    assert_eq!(read("(".repeat(4_096)), Err((64, 4_096, 3)));
    assert_eq!(read("A(".repeat(2_048)), Err((64, 4_096, 3)));
}

#[test]
fn above_4_096_bytes() {
    assert_eq!(read("?".repeat(4_096)), Err((64, 0, 3)));
    assert_eq!(read("?".repeat(4_097)), Err((65, 0, 3)));
    assert_eq!(read(nots(4_097, "")), Err((65, 0, 3)));
    assert_eq!(read(nots(4_093, "true")), Err((65, 0, 3)));
    assert_eq!(read(vec![0xFF; 100_000]), Err((65, 0, 3)));
}

/// any text of the grammar of 533 to 4,096 bytes is 65.
#[test]
fn long_texts_of_the_grammar() {
    for length in [533, 534, 1_000, 4_095, 4_096] {
        for text in [nots(length - 4, "true"), nots(length - 2, "L1"), nested(length, true), nested(length, false)] {
            assert_eq!(text.len(), length);
            assert_eq!(read(&text), Err((65, 0, 3)));
            assert_eq!(read(&text[..length - 1]), Err((64, length as u32 - 1, 3)));
        }
    }
}

#[test]
fn output_short() {
    let mut numbers = Numbers(52);
    for count in 1..=64 {
        let text = some_formula(&mut numbers, count).text();
        let asked = 7 + 8 * count;
        assert_eq!(read_into(&text, asked).map(|rule| rule.len()), Ok(asked));
        assert_eq!(read_into(&text, asked + 1).map(|rule| rule.len()), Ok(asked));
        assert_eq!(read_into(&text, asked - 1), Err((66, 0, 5)));
        assert_eq!(read_into(&text, 0), Err((66, 0, 5)));
    }
}

#[test]
fn output_short_is_last() {
    assert_eq!(read_into("", 0), Err((64, 0, 3)));
    assert_eq!(read_into("true ", 0), Err((64, 4, 3)));
    assert_eq!(read_into(nots(64, "true"), 0), Err((65, 0, 3)));
    assert_eq!(read_into("?".repeat(4_097), 0), Err((65, 0, 3)));
    assert_eq!(read_into("true", 0), Err((66, 0, 5)));
}
