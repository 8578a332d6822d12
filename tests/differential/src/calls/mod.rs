//! The calls of the library and of the oracle on the same cases.

pub mod compare;
pub mod count_as_check;
pub mod count_met;
pub mod exact_met;
pub mod loops_met;
pub mod marks_met;
pub mod met;
pub mod numbers_met;
pub mod outcome;
pub mod promises;
pub mod read_met;
pub mod report;
pub mod rule_met;
pub mod run;
pub mod short_met;
pub mod show_judge;
pub mod show_met;
pub mod summary;
pub mod text_promises;
pub mod there_and_back;
pub mod told;
pub mod words;
pub mod write_met;
