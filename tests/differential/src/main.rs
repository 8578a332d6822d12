//! Runs the proved checker and the oracle on the same cases and compares every answer.
//!
//! Without options: the named cases of the paper, large charts, then 430,000 random cases with a fixed seed, 300,000
//! rules typed as text or written back, and all 637,421 texts of up to four bytes. `--long [COUNT]` runs more
//! (5,000,000 of either), `--seed S` others, `--case I` and `--text I` one of either by its number, `--short I` one of
//! the short texts, `--named I` one of the named and large ones by its number, `--replay CASE` the one whose line a
//! difference printed. The status is 1 if anything differs, or a number of the refusal table with one of its entries,
//! either mark of a form of node in check or in count, E exactly and A exactly among them, what a check of an exact bound,
//! a shown run, a count, a read or a write can be, or a loop that can be taken in no time was never met, or the library's
//! words are not for just the numbers that were met, 2 if the options are wrong. A count is also compared with the
//! library's own check, and what is read or written with what the library makes of that in turn.
//!
//! `--programs DIR` runs the programs desk, desk_test_calls, desk_why, desk_rule and desk_text of that folder instead
//! and compares all they print and write with the oracle's texts, or has the oracle judge it where several runs are
//! right, and what they say of a refusal on standard error with the library's words: on the named pairs of files and
//! the named texts, then on 300 random pairs and 100 random texts with a fixed seed. The other options are the same, for
//! pairs of files and texts; `--long` runs 10,000 and 3,000. The status is 1 too if the random pairs did not lead to
//! listings, runs and refusals, to rows that are found and to empty ones, or the random texts not to rules that are
//! written and refused over files of every sort, and 2 if a program is not there.
//!
//! The file that the variable DIFFERENTIAL_LAST names, if it is set, holds the options of the case under way.

mod bytes;
mod calls;
mod cases;
mod named;
mod options;
#[cfg(test)]
mod other_entry;
mod programs;
mod random;

use std::process::ExitCode;

use calls::{report, run};
use cases::last::Last;
use options::Task;

fn main() -> ExitCode {
    let arguments: Vec<String> =
        std::env::args_os().skip(1).map(|argument| argument.to_string_lossy().into_owned()).collect();
    match options::read(&arguments).and_then(perform) {
        Ok(good) => ExitCode::from(if good { 0 } else { 1 }),
        Err(message) => {
            report::say(&format!("differential: {message}\n{}", options::USAGE));
            ExitCode::from(2)
        }
    }
}

fn perform(task: Task) -> Result<bool, String> {
    let last = Last::open()?;
    match task {
        Task::Run { seed, count, texts } => Ok(run::all(last, seed, count, texts)),
        Task::One(which) => run::one(last, which),
        Task::Replay(case) => Ok(run::alone(&case)),
        Task::Programs { folder, seed, count, texts } => programs::compare::all(&folder, seed, count, texts),
        Task::Pair { folder, which } => programs::compare::one(&folder, which),
    }
}
