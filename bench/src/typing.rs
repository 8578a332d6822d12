//! One input of read or write, run on the library or on the peer.

use crate::library_text;
use crate::timing::{in_turn, Pair, Plan};
use bench::peer::{self, Outcome, Written};
use bench::texts;
use std::hint::black_box;

/// Enough for every rule and every text of one.
pub const ROOM: usize = texts::RULE_TEXT + 1;

#[derive(Clone, Copy, Debug, PartialEq, Eq)]
pub enum Call {
    Read,
    Write,
}

/// A text that is read, or a rule that is written.
pub struct Typing {
    pub call: Call,
    pub bytes: Vec<u8>,
}

/// Filled with what neither program writes, so that kept content shows.
pub fn lent(size: usize) -> Vec<u8> {
    vec![0xAA; size]
}

impl Typing {
    /// The input of that name, and what it is answered with.
    pub fn named(name: &str) -> Result<(Typing, Outcome), String> {
        let read = texts::read(name).map(|text| (Call::Read, text));
        let found = read.or_else(|| texts::write(name).map(|text| (Call::Write, text)));
        let (call, text) = found.ok_or(format!("no text {name}"))?;
        Ok((Typing { call, bytes: text.bytes }, text.answer))
    }

    pub fn library(&self, output: &mut [u8]) -> Written {
        let bytes = black_box(&self.bytes);
        black_box(match self.call {
            Call::Read => library_text::read(bytes, output),
            Call::Write => library_text::write(bytes, output),
        })
    }

    pub fn peer(&self, output: &mut [u8]) -> Written {
        let bytes = black_box(&self.bytes);
        black_box(match self.call {
            Call::Read => peer::read_rule(bytes, output),
            Call::Write => peer::write_rule(bytes, output),
        })
    }

    /// The times of library and peer; an answer that isn't the peer's is not timed.
    pub fn times(&self, plan: &Plan) -> Result<Pair, String> {
        self.agree(ROOM)?;
        let (mut ours, mut theirs) = (lent(ROOM), lent(ROOM));
        let library = || {
            self.library(&mut ours);
        };
        let peer = || {
            self.peer(&mut theirs);
        };
        Ok(in_turn(plan, library, peer))
    }

    /// What both answer with so much output, which both leave alike.
    pub fn agree(&self, output: usize) -> Result<Written, String> {
        let (mut ours, mut theirs) = (lent(output), lent(output));
        let answers = (self.library(&mut ours), self.peer(&mut theirs));
        if answers.0 != answers.1 {
            return Err(format!("answers of library and peer: {answers:?}"));
        }
        match ours.iter().zip(&theirs).position(|(a, b)| a != b) {
            Some(byte) => Err(format!("outputs of library and peer differ at byte {byte}")),
            None => Ok(answers.0),
        }
    }
}
