//! Read: rows 65 and 66 of the refusal table, each with the neighbour that passes, and the order of reading's rows.

use crate::named::charts::List;
use crate::named::expected::{add, read, Expected};
use crate::named::rules::nots;
use crate::random::long_texts::{longest_of_64, nested, under_nots};

/// Number, place and entry.
type Told = (u32, usize, u32);

fn answers(list: &mut List, name: &str, text: impl AsRef<[u8]>, output: usize, (number, place, entry): Told) {
    add(list, name, read(text, output), Expected::Outcome(number, place as u32, entry));
}

/// Above 4,096 bytes, whatever they are.
fn bytes(list: &mut List) {
    for (what, byte) in [("?", b'?'), ("!", b'!'), ("byte 255", 255)] {
        let place = if byte == b'!' { 4_096 } else { 0 };
        answers(list, &format!("row 65 passed: 4,096 × {what}"), vec![byte; 4_096], 519, (64, place, 3));
        answers(list, &format!("row 65: 4,097 × {what}"), vec![byte; 4_097], 519, (65, 0, 3));
        answers(list, &format!("row 65: 100,000 × {what}"), vec![byte; 100_000], 519, (65, 0, 3));
    }
    answers(list, "row 65: 4,097 bytes of a formula", under_nots(b"true", 4_097), 519, (65, 0, 3));
    answers(list, "row 65: 4,097 bytes, output empty", vec![b'?'; 4_097], 0, (65, 0, 3));
    let behind = [b"true", vec![b' '; 4_092].as_slice()].concat();
    answers(list, "row 65 passed: true and 4,092 spaces", behind, 519, (64, 4, 3));
}

/// Only a whole text of the grammar has nodes to count.
fn nodes(list: &mut List) {
    add(list, "row 65 passed: 64 nodes", read(under_nots(b"true", 67), 519), Expected::Nodes(nots(64)));
    answers(list, "row 65: 65 nodes", under_nots(b"true", 68), 519, (65, 0, 3));
    add(list, "row 65 passed: 64 nodes, 532 bytes", read(longest(), 519), Expected::Nodes(longest_of_64()));
    answers(list, "row 65: 65 nodes, 533 bytes", under_nots(&longest(), 533), 519, (65, 0, 3));
    let pairs = |left: usize| "(".repeat(left) + "L1" + &" & L1)".repeat(left);
    answers(list, "row 65 passed: 63 nodes", pairs(31), 511, (0, 0, 0));
    answers(list, "row 65: 32 pairs, 65 nodes", pairs(32), 519, (65, 0, 3));
    answers(list, "70 nots, then a strange byte", [vec![b'!'; 70], vec![b'x']].concat(), 519, (64, 70, 3));
    answers(list, "70 nots alone", vec![b'!'; 70], 519, (64, 70, 3));
    answers(list, "70 nots of true", under_nots(b"true", 74), 519, (65, 0, 3));
    answers(list, "70 nots of true and a space", under_nots(b"true ", 75), 519, (64, 74, 3));
    answers(list, "70 nots of L16", under_nots(b"L16", 73), 519, (64, 72, 3));
}

fn longest() -> Vec<u8> {
    crate::bytes::text::text(&longest_of_64())
}

/// A text may nest as deep as it is long.
fn deep(list: &mut List) {
    answers(list, "4,096 brackets", vec![b'('; 4_096], 519, (64, 4_096, 3));
    answers(list, "2,048 times A(", "A(".repeat(2_048), 519, (64, 4_096, 3));
    answers(list, "4,095 nots and a strange byte", [vec![b'!'; 4_095], vec![b'?']].concat(), 519, (64, 4_095, 3));
    answers(list, "4,092 nots of true", under_nots(b"true", 4_096), 519, (65, 0, 3));
    answers(list, "4,093 nots of tru", under_nots(b"tru", 4_096), 519, (64, 4_096, 3));
    for length in [533, 534, 1_000, 4_095, 4_096] {
        for (side, left) in [("left", true), ("right", false)] {
            let text = nested(length, left);
            answers(list, &format!("{length} bytes of a formula, {side}"), &text, 519, (65, 0, 3));
            answers(
                list,
                &format!("{length} bytes but the last, {side}"),
                &text[..length - 1],
                519,
                (64, length - 1, 3),
            );
            let other = [&text[..length - 1], b"!"].concat();
            answers(list, &format!("{length} bytes, the last another, {side}"), other, 519, (64, length - 1, 3));
        }
    }
}

/// 7 + 8k bytes of output are just enough.
fn outputs(list: &mut List) {
    for (text, wanted) in [("true", 15), ("!L15", 23), ("A(true U<=14 L2)", 31)] {
        for output in [wanted, wanted + 1, wanted + 40, 519] {
            answers(list, &format!("row 66 passed: {text}, {output} bytes"), text, output, (0, 0, 0));
        }
        for output in [0, 1, 7, wanted - 8, wanted - 1] {
            answers(list, &format!("row 66: {text}, {output} bytes"), text, output, (66, 0, 5));
        }
    }
    for (name, text) in [("nots", under_nots(b"true", 67)), ("532 bytes", longest())] {
        answers(list, &format!("row 66 passed: 64 nodes, {name}"), &text, 519, (0, 0, 0));
        answers(list, &format!("row 66: 64 nodes, {name}"), &text, 518, (66, 0, 5));
    }
}

/// 66 is last.
fn order(list: &mut List) {
    answers(list, "64 goes before 66", "true ", 0, (64, 4, 3));
    answers(list, "64 of the empty text goes before 66", "", 0, (64, 0, 3));
    answers(list, "65 of 65 nodes goes before 66", under_nots(b"true", 68), 0, (65, 0, 3));
    answers(list, "64 goes before 65 of nodes", under_nots(b"true)", 80), 0, (64, 79, 3));
    answers(list, "65 of bytes goes before 64", "? ".repeat(2_049), 0, (65, 0, 3));
    answers(list, "66 alone", "true", 0, (66, 0, 5));
}

pub fn all(list: &mut List) {
    bytes(list);
    nodes(list);
    deep(list);
    outputs(list);
    order(list);
}
