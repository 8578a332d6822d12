//! What the paper says of every answer of read and write, whatever is handed to them: both programs are held to it.

use crate::calls::compare::{with_behind, Answer};
use crate::calls::outcome::Outcome;
use crate::cases::case::{Case, Lent};

/// The most bytes of a text and nodes of a rule, and the bytes of the longest text of so many nodes.
const MOST_BYTES: usize = 4_096;
const MOST_NODES: usize = 64;
const LONGEST: usize = 532;

/// The bytes that were written; None where they are not kept as they have to be.
fn front<'a>(lent: &Lent, number: u32, written: usize, output: &'a [u8]) -> Option<&'a [u8]> {
    let before = with_behind(lent);
    let fits = output.len() == before.len() && written <= lent.length && (number == 0 || written == 0);
    let front = output.get(..written).filter(|_| fits)?;
    (output[written..] == before[written..]).then_some(front)
}

/// A rule of bytes that state their own length: 7 + 8k for k nodes.
fn is_framed(rule: &[u8]) -> bool {
    let Some((&[version, a, b, c, d, high, low], nodes)) = rule.split_first_chunk() else {
        return false;
    };
    let k = usize::from(u16::from_be_bytes([high, low]));
    let length = u32::from_be_bytes([a, b, c, d]) as usize;
    version == 1 && (1..=MOST_NODES).contains(&k) && nodes.len() == 8 * k && length == rule.len()
}

/// A place only of 64, and that one no further than where the text ends.
fn place_told(outcome: Outcome, text: &[u8]) -> bool {
    match outcome.number {
        64 => text.len() <= MOST_BYTES && outcome.place as usize <= text.len(),
        _ => outcome.place == 0,
    }
}

/// The grammar has no other bytes.
fn is_of_text(byte: &u8) -> bool {
    b"trueLEAU!()&|<>= 0123456789".contains(byte)
}

fn read_broken(text: &[u8], outcome: Outcome, rule: &[u8]) -> Option<&'static str> {
    if !place_told(outcome, text) {
        return Some("a place that is none");
    }
    if outcome.number == 0 && !is_framed(rule) {
        return Some("no rule of 7 + 8k bytes");
    }
    (outcome.number == 0 && text.len() > LONGEST).then_some("a text that is too long for 64 nodes accepted")
}

fn write_broken(outcome: Outcome, text: &[u8]) -> Option<&'static str> {
    if outcome.number == 66 && outcome.place != 0 {
        return Some("66 has a place");
    }
    let right = !text.is_empty() && text.len() <= LONGEST && text.iter().all(is_of_text);
    (outcome.number == 0 && !right).then_some("no text of the grammar's bytes")
}

/// What is broken, if anything is.
pub fn broken(case: &Case, answer: &Answer) -> Option<&'static str> {
    let Answer::Turned { outcome, written, output } = answer else {
        return None;
    };
    let (Case::Read { output: lent, .. } | Case::Write { output: lent, .. }) = case else {
        return Some("another call's answer");
    };
    let Some(front) = front(lent, outcome.number, *written, output) else {
        return Some("output not kept, or bytes written on a refusal");
    };
    match case {
        Case::Read { text, .. } => read_broken(text, *outcome, front),
        _ => write_broken(*outcome, front),
    }
}

#[cfg(test)]
mod tests {
    use super::broken;
    use crate::calls::compare::{with_behind, Answer};
    use crate::calls::outcome::Outcome;
    use crate::cases::case::{Case, Lent};

    const LENT: Lent = Lent { length: 16, fill: 3 };

    /// Whether an answer with these bytes at the front keeps the promises.
    fn kept(case: &Case, (number, place, entry): (u32, u32, u32), front: &[u8], written: usize) -> bool {
        let mut output = with_behind(&LENT);
        output[..front.len()].copy_from_slice(front);
        let outcome = Outcome { number, place, entry };
        broken(case, &Answer::Turned { outcome, written, output }).is_none()
    }

    #[test]
    fn of_read() {
        let case = Case::Read { text: b"true".to_vec(), output: LENT };
        let rule = [1, 0, 0, 0, 15, 0, 1, 0, 0, 0, 0, 0, 0, 0, 0];
        let read = |outcome, front: &[u8], written| kept(&case, outcome, front, written);
        assert!(
            read((0, 0, 0), &rule, 15)
                && read((64, 4, 3), &[], 0)
                && read((65, 0, 3), &[], 0)
                && read((66, 0, 5), &[], 0)
        );
        assert!(!read((0, 0, 0), &rule, 14) && !read((0, 0, 0), &rule, 16) && !read((0, 0, 0), &rule[..14], 14));
        assert!(!read((64, 5, 3), &[], 0) && !read((65, 1, 3), &[], 0) && !read((66, 4, 5), &[], 0));
        assert!(!read((64, 4, 3), &rule[..1], 0) && !read((66, 0, 5), &rule, 15));
        // Behind the output.
        assert!(!read((0, 0, 0), &[&rule[..], &[0; 2]].concat(), 15) && !read((64, 0, 3), &[0; 17], 0));
    }

    #[test]
    fn of_write() {
        let case = Case::Write { rule: vec![], output: LENT };
        let write = |outcome, front: &[u8], written| kept(&case, outcome, front, written);
        assert!(write((0, 0, 0), b"true", 4) && write((16, 3, 3), b"", 0) && write((66, 0, 5), b"", 0));
        assert!(!write((0, 0, 0), b"true", 3) && !write((0, 0, 0), b"", 0) && !write((0, 0, 0), b"True", 4));
        assert!(!write((66, 1, 5), b"", 0) && !write((66, 0, 5), b"t", 0) && !write((10, 0, 3), b"true", 4));
    }

    #[test]
    fn a_text_above_532_bytes_is_never_a_rule() {
        let rule = [1, 0, 0, 0, 15, 0, 1, 0, 0, 0, 0, 0, 0, 0, 0];
        let of = |length| Case::Read { text: vec![b'!'; length], output: LENT };
        assert!(kept(&of(532), (0, 0, 0), &rule, 15) && !kept(&of(533), (0, 0, 0), &rule, 15));
        assert!(kept(&of(4_096), (64, 4_096, 3), &[], 0) && !kept(&of(4_097), (64, 0, 3), &[], 0));
    }
}
