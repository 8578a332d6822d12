//! The bytes of a run: per position the state (2 bytes) and the duration (4).

use crate::bytes::word_at;

/// The bytes of one position.
pub const POSITION: usize = 6;

/// The duration is that of the step from here, 0 at the last position.
#[derive(Clone, Copy)]
pub struct Position {
    pub state: u16,
    pub duration: u32,
}

pub fn run_bytes(run: &[Position]) -> Vec<u8> {
    let words = |at: &Position| [at.state.to_be_bytes().as_slice(), &at.duration.to_be_bytes()].concat();
    run.iter().flat_map(words).collect()
}

/// What is left over after the last whole position is not looked at.
pub fn run_of_bytes(bytes: &[u8]) -> Vec<Position> {
    let long = |at: &[u8]| u32::from(word_at(at, 2)) << 16 | u32::from(word_at(at, 4));
    bytes.chunks_exact(POSITION).map(|at| Position { state: word_at(at, 0), duration: long(at) }).collect()
}

/// The moment of each position: the durations before it, 64 bits wide so that no run's sum wraps.
pub fn moments(run: &[Position]) -> Vec<u64> {
    let before = |sum: &mut u64, at: &Position| Some(std::mem::replace(sum, *sum + u64::from(at.duration)));
    run.iter().scan(0, before).collect()
}
