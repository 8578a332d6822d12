//! Single edits of a text: one byte deleted, inserted or replaced.

use crate::random::rng::Rng;

/// Bytes that a text is made of.
const KNOWN: &[u8] = b"trueLEAU!()&|<>= 0123456789";
/// Some that stand near them in one way or other, and some that don't.
const STRANGE: &[u8] = b"\x00\t\n\r#'*+,-.lTRUE[]{}~^\x7F\x80\xA0\xC3\xFF";

#[derive(Clone, Copy, Debug, PartialEq, Eq)]
enum Edit {
    Delete(usize),
    Insert(usize),
    Replace(usize),
}

/// An edit in so many, one after the other: first every byte is deleted, then one is inserted before and behind each,
/// then each is replaced.
fn in_turn(number: usize, length: usize) -> Option<Edit> {
    let kinds = [(length, Edit::Delete as fn(usize) -> Edit), (length + 1, Edit::Insert), (length, Edit::Replace)];
    let mut rest = number;
    for (positions, edit) in kinds {
        if rest < positions {
            return Some(edit(rest));
        }
        rest -= positions;
    }
    None
}

/// How many edits there are in turn.
fn turns(length: usize) -> usize {
    3 * length + 1
}

fn anywhere(rng: &mut Rng, length: usize) -> Edit {
    in_turn(rng.below(turns(length)), length).unwrap_or(Edit::Insert(0))
}

fn byte(rng: &mut Rng) -> u8 {
    match rng.below(20) {
        0 => rng.next() as u8,
        1 | 2 => rng.pick(STRANGE),
        _ => rng.pick(KNOWN),
    }
}

fn edited(rng: &mut Rng, text: &[u8], edit: Edit) -> Vec<u8> {
    let mut text = text.to_vec();
    match edit {
        Edit::Delete(at) => {
            text.remove(at);
        }
        Edit::Insert(at) => text.insert(at, byte(rng)),
        Edit::Replace(at) => text[at] = byte(rng),
    }
    text
}

/// The edit of that number in a row of `all`: each position in turn if there are enough of them, else anywhere.
pub fn numbered(rng: &mut Rng, text: &[u8], number: usize, all: usize) -> Vec<u8> {
    let whole = turns(text.len()) <= all;
    let next = in_turn(number, text.len()).filter(|_| whole);
    let edit = next.unwrap_or_else(|| anywhere(rng, text.len()));
    edited(rng, text, edit)
}

/// One edit, anywhere.
pub fn random(rng: &mut Rng, text: &[u8]) -> Vec<u8> {
    let edit = anywhere(rng, text.len());
    edited(rng, text, edit)
}

#[cfg(test)]
mod tests {
    use super::{edited, in_turn, numbered, turns, Edit};
    use crate::random::rng::Rng;

    #[test]
    fn every_position_comes_in_turn() {
        let all: Vec<_> = (0..turns(2)).map(|number| in_turn(number, 2)).collect();
        let (deleted, replaced) = ([0, 1].map(Edit::Delete), [0, 1].map(Edit::Replace));
        let wanted = [&deleted[..], &[0, 1, 2].map(Edit::Insert), &replaced].concat();
        assert_eq!((all, in_turn(turns(2), 2)), (wanted.into_iter().map(Some).collect(), None));
    }

    #[test]
    fn one_byte_is_another() {
        let rng = &mut Rng::new(1);
        assert_eq!(edited(rng, b"L12", Edit::Delete(1)), b"L2");
        let longer = edited(rng, b"L12", Edit::Insert(3));
        assert_eq!((longer.len(), &longer[..3]), (4, &b"L12"[..]));
        let other = edited(rng, b"L12", Edit::Replace(0));
        assert_eq!((other.len(), &other[1..]), (3, &b"12"[..]));
    }

    /// A long text has more positions than are taken in turn.
    #[test]
    fn a_row_too_short_for_all_is_random() {
        let rng = &mut Rng::new(2);
        assert_eq!(numbered(rng, &[b'!'; 50], 0, 255), [b'!'; 49]);
        let lengths: Vec<usize> = (0..99).map(|number| numbered(rng, &[b'!'; 500], number, 255).len()).collect();
        assert!([499, 500, 501].iter().all(|length| lengths.contains(length)));
    }
}
