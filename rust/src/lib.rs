//! Safe calls into the proved checker of timed rules over dispatch charts.
//!
//! The library takes any bytes and tests them itself, so no input is tested here. Answers are: a number, a refusal without a
//! paper, a kind, a place in a table, a count of bytes written, a byte of a text, or a mark of [`marks`](marks()), that the library
//! promises never to give ends in a panic that names it. What is promised of each call stands in `docs/PROMISES.md`,
//! the formats in `README.md`.
//!
//! ```
//! // Short: 0 to 1 in 5 to 10 minutes, 1 to 2 in 0 to 4, 2 to 0 in 20 to no end.
//! let chart = [
//!     1, 0, 0, 0, 39, 0, 3, 0, 3, 0, 1, 0, 2, 0, 4, // three states with labels 0, 1 and 2
//!     0, 0, 0, 1, 0, 5, 0, 10, 0, 1, 0, 2, 0, 0, 0, 4, 0, 2, 0, 0, 0, 20, 255, 255, // three arrows
//! ];
//! // A(true until L2, at most 13): node 0 is true, node 1 is L2, node 2 the until.
//! let rule = [1, 0, 0, 0, 31, 0, 3, 0, 0, 0, 0, 0, 0, 0, 0, 1, 0, 0, 2, 0, 0, 0, 0, 6, 1, 0, 0, 0, 1, 0, 13];
//!
//! let marks = doilystrand::marks(&chart, &rule)?;
//! assert_eq!(marks.rule_row(), [0, 1, 1]);
//!
//! let refusal = doilystrand::marks(&chart[..38], &rule).unwrap_err();
//! assert_eq!(refusal.to_string(), "refused 3 at 0 1: chart's stated length is not the real one (chart or detail)");
//!
//! // The rule can be typed as text, and is written back as text.
//! assert_eq!(doilystrand::rule_of("A(true U<=13 L2)")?, rule);
//! assert_eq!(doilystrand::text_of(&rule)?, "A(true U<=13 L2)");
//! # Ok::<(), doilystrand::Refusal>(())
//! ```

mod arrow;
mod call;
mod check;
mod count;
mod kind;
mod limits;
mod map;
mod marking;
mod marks;
mod outcome;
mod read_rule;
mod row;
mod run;
#[cfg(test)]
mod samples;
mod show;
mod texts;
mod why;
mod words;
mod write_rule;
mod written;

pub use arrow::{arrow, ArrowWords};
pub use check::check;
pub use count::count;
pub use kind::{kind_of_rule, Kind, KindAnswer};
pub use limits::{MAX_ARROWS, MAX_CHART, MAX_MAP, MAX_MARKS, MAX_NODES, MAX_RULE, MAX_SCRATCH, MAX_STATES, NO_END};
pub use limits::{MAX_COUNT_BOUND, MAX_COUNT_SCRATCH, MAX_RULE_TEXT, MAX_RUN, MAX_RUN_SCRATCH, MAX_TEXT};
pub use map::map_check;
pub use marks::{marks, Marks};
pub use outcome::{Outcome, Refusal};
pub use read_rule::read_rule;
pub use row::{row, Choice};
pub use run::{Position, Run};
pub use show::show;
pub use texts::{rule_of, text_of};
pub use why::why;
pub use words::Words;
pub use write_rule::write_rule;
