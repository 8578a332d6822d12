//! Inputs of read and write: texts of 10, 64, 532 and 4,096 bytes, and rules that have such a text.

use crate::peer::{self, Outcome};

/// Of read; those of 4,096 bytes are refused, since no text above 532 has at most 64 nodes.
pub const READS: [&str; 7] =
    ["read-10", "read-64", "read-532", "read-4096", "read-4096-last", "read-4096-nots", "read-4096-brackets"];

/// Of write; no rule has a text of more than 532 bytes.
pub const WRITES: [&str; 3] = ["write-10", "write-64", "write-532"];

/// The longest rule, and the longest text of one.
pub const RULE: usize = 519;
pub const RULE_TEXT: usize = 532;

/// The longest text that is read.
pub const TEXT: usize = 4_096;

const SHORT: &str = "(L0 & !L1)";
const MIDDLE: &str = "(A(true U<=14 L1) | (E(!L2 U>=60 (L3 & L4)) & !A(L0 U<=15 L15)))";
const LAST: &str = "E(L5 U<=65535 (L6 | !L7))";

/// What a call is handed, and the outcome that it answers.
pub struct Text {
    pub bytes: Vec<u8>,
    pub answer: Outcome,
}

/// The text of that name; no such text gives none.
pub fn read(name: &str) -> Option<Text> {
    let taken = |bytes: Vec<u8>| Some(Text { bytes, answer: Outcome::ACCEPTED });
    let refused = |bytes: Vec<u8>, number, place, entry| Some(Text { bytes, answer: Outcome { number, place, entry } });
    let last = TEXT as u32 - 1;
    match name {
        "read-10" => taken(SHORT.into()),
        "read-64" => taken(MIDDLE.into()),
        "read-532" => taken(longest().into()),
        "read-4096" => refused(large().into(), 65, 0, 3),
        "read-4096-last" => refused([&large().as_bytes()[..TEXT - 1], b"!"].concat(), 64, last, 3),
        "read-4096-nots" => refused(("!".repeat(TEXT - 4) + "true").into(), 65, 0, 3),
        "read-4096-brackets" => refused("(".repeat(TEXT).into(), 64, TEXT as u32, 3),
        _ => None,
    }
}

/// The rule of that name; no such rule gives none.
pub fn write(name: &str) -> Option<Text> {
    let text = match name {
        "write-10" => SHORT.to_string(),
        "write-64" => MIDDLE.to_string(),
        "write-532" => longest(),
        _ => return None,
    };
    Some(Text { bytes: rule(text.as_bytes())?, answer: Outcome::ACCEPTED })
}

/// The rule that a text stands for, by the peer.
pub fn rule(text: &[u8]) -> Option<Vec<u8>> {
    let mut bytes = vec![0; RULE];
    let read = peer::read_rule(text, &mut bytes);
    bytes.truncate(read.written);
    (read.outcome.number == 0).then_some(bytes)
}

/// 31 untils of five digits, each in the next, under a not: 64 nodes.
fn longest() -> String {
    "!".to_string() + &"E(".repeat(31) + "true" + &" U>=65535 true)".repeat(31)
}

/// One formula of 4,096 bytes: the middle one again and again, each joined to all that come after it.
fn large() -> String {
    let joined = format!("({MIDDLE} & ");
    let count = (TEXT - LAST.len()) / (joined.len() + 1);
    joined.repeat(count) + LAST + &")".repeat(count)
}
