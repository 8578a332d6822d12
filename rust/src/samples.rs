//! Bytes for the unit tests.

use crate::{MAX_ARROWS, MAX_NODES, MAX_STATES};

/// Short: 0 to 1 in 5 to 10 minutes, 1 to 2 in 0 to 4, 2 to 0 in 20 to no end.
pub const SHORT: &[u8] = include_bytes!("../../examples/short/desk.cht");
/// A(true until L2, at most 13).
pub const WITHIN_13: &[u8] = include_bytes!("../../examples/short/desk.rul");

/// E(true until L2, at most 5).
pub const SOME_WITHIN_5: &[u8] =
    &[1, 0, 0, 0, 31, 0, 3, 0, 0, 0, 0, 0, 0, 0, 0, 1, 0, 0, 2, 0, 0, 0, 0, 5, 1, 0, 0, 0, 1, 0, 5];

/// Version and length of the whole before the words.
fn framed(words: impl IntoIterator<Item = usize>) -> Vec<u8> {
    let rest: Vec<u8> = words.into_iter().flat_map(|w| u16::try_from(w).expect("a word").to_be_bytes()).collect();
    let length = u32::try_from(5 + rest.len()).expect("a length").to_be_bytes();
    [&[1], &length[..], &rest].concat()
}

/// A ring of all states, each arrow of one minute and as often as there is room.
pub fn largest_chart() -> Vec<u8> {
    let labels = [0; MAX_STATES];
    let arrows = (0..MAX_ARROWS).flat_map(|i| [i % MAX_STATES, (i + 1) % MAX_STATES, 1, 1]);
    framed([MAX_STATES, MAX_ARROWS].into_iter().chain(labels).chain(arrows))
}

/// Node 0 is true, each later one not the one before.
pub fn largest_rule() -> Vec<u8> {
    let nots = (1..MAX_NODES).flat_map(|i| [0x0200, i - 1, 0, 0]);
    framed([MAX_NODES, 0, 0, 0, 0].into_iter().chain(nots))
}

/// As long, with an exact until under its nots.
pub fn largest_exact_rule() -> Vec<u8> {
    let nots = (3..MAX_NODES).flat_map(|i| [0x0200, i - 1, 0, 0]);
    framed([MAX_NODES, 0, 0, 0, 0, 0, 0, 0, 0, 0x0503, 0, 1, 0].into_iter().chain(nots))
}

/// E(true until true, at least these minutes).
pub fn some_run_of_at_least(minutes: usize) -> Vec<u8> {
    framed([3, 0, 0, 0, 0, 0, 0, 0, 0, 0x0502, 0, 1, minutes])
}

/// Each state stands for itself.
pub fn largest_map() -> Vec<u8> {
    framed([MAX_STATES].into_iter().chain(0..MAX_STATES))
}

/// As long as the text of 64 nodes can be: 31 untils of five digits, each in the next, under a not.
pub fn longest_text() -> String {
    "!".to_string() + &"E(".repeat(31) + "true" + &" U>=65535 true)".repeat(31)
}
