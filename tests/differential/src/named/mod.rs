//! The papers' own cases, with the answer written beside each.

pub mod charts;
pub mod counts;
pub mod exact_marks;
pub mod exact_rows;
pub mod exact_shows;
pub mod expected;
pub mod items;
pub mod large;
pub mod maps;
pub mod minutes;
pub mod passing;
pub mod rules;
pub mod shows;
pub mod texts;
pub mod timelocks;
pub mod typed_limits;
pub mod written;
