//! Tests of the peer and of the benchmark's inputs.

mod common;
mod count;
mod counted;
mod drawn;
mod exact;
mod handover;
mod inputs;
mod items;
mod reason;
mod refusals;
mod runs;
mod show;
mod show_refusals;
mod shown;
mod texts;
mod typed;
mod unordered;
