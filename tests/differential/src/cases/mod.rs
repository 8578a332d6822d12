//! A case: what is handed to a call, its line, and the one under way.

pub mod case;
pub mod last;
pub mod replay;
pub mod short;
