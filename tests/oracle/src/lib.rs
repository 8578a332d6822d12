//! Check, count, shown run, kind of rule, map check, row, chart reader and the two calls for rules typed as text, written
//! from the customer's papers alone.
//!
//! Check settles untils by fixpoints over pairs of a state and a minute, and those of "exactly" by following all runs from
//! a state at once; runs are searched for over the same pairs. Count lists states for each number of minutes left. Nothing
//! here measures a path. Typed rules are read by Earley's method over a table of the grammar. Where the papers leave a
//! result free, a judge says whether somebody's is right.

mod answers;
mod asked;
mod bound;
mod bytes;
mod calls;
mod chart;
mod chart_rows;
mod check;
mod count;
mod desk;
mod earley;
mod entry;
mod every_run;
mod exactly;
mod fill;
mod front;
mod grammar;
mod judge_run;
mod judge_show;
mod judge_why;
mod kind;
mod leaving;
mod listed;
mod loops;
mod map_check;
mod map_rows;
mod members;
mod minutes;
mod moment_set;
mod position;
mod reach;
mod read_rule;
mod reader;
mod refusals;
mod row;
mod rule;
mod rule_rows;
mod search;
mod settle;
mod show;
mod tree;
mod typed_desk;
mod unbounded;
mod until;
mod unvisited;
mod verdict;
mod why;
mod write_rule;
mod zero_loops;

pub use answers::{ArrowWords, Choice, Kind, KindAnswer, Outcome, Written};
pub use calls::{calls_text, ASK_READ};
pub use check::check;
pub use count::count;
pub use desk::{counted_listing, listing, refused_line, CHART_READ, RULE_READ};
pub use judge_run::judge_run;
pub use judge_show::{judge_show, ShowCall};
pub use judge_why::judge_why;
pub use kind::kind_of_rule;
pub use map_check::map_check;
pub use read_rule::read_rule;
pub use reader::{arrow, Reader};
pub use row::row;
pub use show::{fewest_steps, show};
pub use typed_desk::{rule_text, typed_rule, TypedRule, TEXT_READ};
pub use why::why_text;
pub use write_rule::write_rule;
pub use zero_loops::{has_leavable_loop_of_0_to_0, has_loop_of_fewest_0};
