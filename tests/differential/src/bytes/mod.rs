//! The bytes of charts and rules, and the texts of rules.

pub mod chart;
pub mod rule;
pub mod text;
