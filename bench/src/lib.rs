//! The peer that the library is timed against, and the inputs of the benchmark.

pub mod bytes;
pub mod counted;
pub mod deep;
pub mod drawn;
pub mod edited;
pub mod exact;
pub mod families;
pub mod handover;
pub mod instant;
pub mod ladder;
pub mod maps;
pub mod nodes;
pub mod parts;
pub mod peer;
pub mod random;
pub mod ring;
pub mod rules;
pub mod shown;
pub mod small;
pub mod texts;
pub mod unordered;
