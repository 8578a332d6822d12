//! A shown run: its positions.

use std::fmt;

/// A position of a run: its state, and the minutes that the arrow taken from there takes; 0 at the last position.
#[derive(Clone, Copy, Debug, PartialEq, Eq)]
pub struct Position {
    pub state: usize,
    pub duration: u32,
}

/// Bytes of a position: the state's two, the duration's four.
const SIZE: usize = 6;

/// A run as it stands in the output that was lent for it.
#[derive(Clone, Copy, PartialEq, Eq)]
pub struct Run<'a> {
    bytes: &'a [u8],
}

impl<'a> Run<'a> {
    /// The run of bytes that were written.
    pub(crate) fn of(bytes: &'a [u8]) -> Run<'a> {
        let whole = !bytes.is_empty() && bytes.len() % SIZE == 0;
        assert!(whole, "the library answers a run of {} bytes", bytes.len());
        Run { bytes }
    }

    /// How many arrows are taken: one fewer than there are positions.
    #[must_use]
    pub fn steps(self) -> usize {
        self.bytes.len() / SIZE - 1
    }

    /// Its positions in order.
    pub fn positions(self) -> impl Iterator<Item = Position> + 'a {
        self.bytes.chunks_exact(SIZE).map(position)
    }

    /// Its bytes as they were written.
    #[must_use]
    pub fn bytes(self) -> &'a [u8] {
        self.bytes
    }
}

fn position(bytes: &[u8]) -> Position {
    let (state, duration) = bytes.split_at(2);
    let number = |bytes: &[u8]| bytes.iter().fold(0, |number, &byte| number << 8 | u32::from(byte));
    Position { state: number(state) as usize, duration: number(duration) }
}

impl fmt::Debug for Run<'_> {
    fn fmt(&self, f: &mut fmt::Formatter<'_>) -> fmt::Result {
        f.debug_list().entries(self.positions()).finish()
    }
}

#[cfg(test)]
mod tests {
    use super::*;

    const BYTES: [u8; 12] = [0, 0, 0, 0, 0, 5, 1, 2, 0, 1, 0, 0];

    #[test]
    fn positions_are_read() {
        let run = Run::of(&BYTES);
        let positions = [Position { state: 0, duration: 5 }, Position { state: 258, duration: 65_536 }];
        assert_eq!((run.steps(), run.positions().collect::<Vec<_>>()), (1, positions.to_vec()));
        assert_eq!(run.bytes(), BYTES);
        assert_eq!(format!("{:?}", Run::of(&BYTES[..6])), "[Position { state: 0, duration: 5 }]");
    }

    #[test]
    fn words_are_not_cut() {
        assert_eq!(position(&[255; 6]), Position { state: 65_535, duration: u32::MAX });
    }

    #[test]
    #[should_panic = "the library answers a run of 8 bytes"]
    fn part_of_a_position_panics() {
        let _ = Run::of(&BYTES[..8]);
    }

    #[test]
    #[should_panic = "the library answers a run of 0 bytes"]
    fn a_run_without_positions_panics() {
        let _ = Run::of(&[]);
    }
}
