//! The grammar of typed rules as data, its formulas in the paper's own words.

use crate::rule::{AND, AT_LEAST, AT_MOST, A_UNTIL, EXACTLY, E_UNTIL, LABEL, NOT, OR, TRUE};

/// What has a text of its own.
#[derive(Clone, Copy, PartialEq, Eq)]
pub enum Part {
    Formula,
    LabelNumber,
    Bound,
    ExactBound,
}

/// One way to write a part: its letters in their order.
pub struct Row {
    pub part: Part,
    pub letters: &'static [u8],
    /// Operation and bound kind of a formula's node; a number makes no node.
    pub makes: Option<(u8, u8)>,
}

/// What a letter of a row stands for: a part, or one byte of a range.
#[derive(PartialEq, Eq)]
pub enum Symbol {
    Part(Part),
    Byte(u8, u8),
}

pub static GRAMMAR: [Row; 27] = [
    formula(b"true", TRUE, 0),
    formula(b"Lj", LABEL, 0),
    formula(b"!f", NOT, 0),
    formula(b"(f & g)", AND, 0),
    formula(b"(f | g)", OR, 0),
    formula(b"E(f U<=c g)", E_UNTIL, AT_MOST),
    formula(b"E(f U>=c g)", E_UNTIL, AT_LEAST),
    formula(b"A(f U<=c g)", A_UNTIL, AT_MOST),
    formula(b"A(f U>=c g)", A_UNTIL, AT_LEAST),
    formula(b"E(f U==x g)", E_UNTIL, EXACTLY),
    formula(b"A(f U==x g)", A_UNTIL, EXACTLY),
    number(Part::LabelNumber, b"d"),
    number(Part::LabelNumber, b"1m"),
    number(Part::Bound, b"d"),
    number(Part::Bound, b"pd"),
    number(Part::Bound, b"pdd"),
    number(Part::Bound, b"pddd"),
    number(Part::Bound, b"ndddd"),
    number(Part::Bound, b"6kddd"),
    number(Part::Bound, b"65kdd"),
    number(Part::Bound, b"655hd"),
    number(Part::Bound, b"6553m"),
    number(Part::ExactBound, b"d"),
    number(Part::ExactBound, b"pd"),
    number(Part::ExactBound, b"1dd"),
    number(Part::ExactBound, b"2kd"),
    number(Part::ExactBound, b"25m"),
];

/// No letter that stands for something else is a byte of the grammar's texts.
pub fn symbol(letter: u8) -> Symbol {
    match letter {
        b'f' | b'g' => Symbol::Part(Part::Formula),
        b'j' => Symbol::Part(Part::LabelNumber),
        b'c' => Symbol::Part(Part::Bound),
        b'x' => Symbol::Part(Part::ExactBound),
        b'd' => Symbol::Byte(b'0', b'9'),
        b'h' => Symbol::Byte(b'0', b'2'),
        b'k' => Symbol::Byte(b'0', b'4'),
        b'm' => Symbol::Byte(b'0', b'5'),
        b'n' => Symbol::Byte(b'1', b'5'),
        b'p' => Symbol::Byte(b'1', b'9'),
        byte => Symbol::Byte(byte, byte),
    }
}

const fn formula(letters: &'static [u8], operation: u8, bound_kind: u8) -> Row {
    Row { part: Part::Formula, letters, makes: Some((operation, bound_kind)) }
}

const fn number(part: Part, letters: &'static [u8]) -> Row {
    Row { part, letters, makes: None }
}
