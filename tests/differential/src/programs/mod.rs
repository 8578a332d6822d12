//! What the programs print and write, and what the oracle does, on the same files and texts.

pub mod asks;
pub mod compare;
pub mod complaint;
pub mod files;
pub mod folder;
pub mod judge;
pub mod limits;
pub mod limits_length;
pub mod limits_rows;
pub mod limits_why;
pub mod met;
pub mod pair_compare;
pub mod pairs;
pub mod process;
pub mod typed;
pub mod typed_compare;
pub mod typed_limits;
pub mod typed_met;
pub mod typed_random;
pub mod why;
