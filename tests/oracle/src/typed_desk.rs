//! What the programs desk_rule and desk_text do: a typed rule becomes the desk's rule file, and that is told as text.

use crate::desk::{refused_line, RULE_READ};
use crate::read_rule::read_rule;
use crate::write_rule::write_rule;

/// The bytes of standard input that are looked at: one more than the longest text and its newline.
pub const TEXT_READ: usize = 4_098;

/// The bytes of 64 nodes, and of the longest text they have.
const RULE_ROOM: usize = 519;
const TEXT_ROOM: usize = 532;

/// What desk_rule prints, and the rule file where it writes one.
pub struct TypedRule {
    pub printed: Vec<u8>,
    pub file: Option<Vec<u8>>,
}

/// Of newlines at the end of what was read only the last is none of the text.
pub fn typed_rule(input: &[u8]) -> TypedRule {
    let looked_at = &input[..input.len().min(TEXT_READ)];
    let text = looked_at.strip_suffix(b"\n").unwrap_or(looked_at);
    let mut rule = [0; RULE_ROOM];
    let answer = read_rule(text, &mut rule);
    match answer.outcome.refused() {
        true => {
            let pointer = format!("\n{}^\n", " ".repeat(answer.outcome.place as usize));
            let printed = [refused_line(answer.outcome).into_bytes(), shown(text), pointer.into_bytes()].concat();
            TypedRule { printed, file: None }
        }
        false => TypedRule { printed: Vec::new(), file: Some(rule[..answer.written].to_vec()) },
    }
}

/// On one line, whatever the bytes.
fn shown(text: &[u8]) -> Vec<u8> {
    let shown = |&byte: &u8| if byte.is_ascii_control() { b'?' } else { byte };
    text.iter().map(shown).collect()
}

/// What desk_text prints for the bytes of a rule file.
pub fn rule_text(file: &[u8]) -> Vec<u8> {
    let mut text = [0; TEXT_ROOM];
    let answer = write_rule(&file[..file.len().min(RULE_READ)], &mut text);
    match answer.outcome.refused() {
        true => refused_line(answer.outcome).into_bytes(),
        false => [&text[..answer.written], b"\n"].concat(),
    }
}
