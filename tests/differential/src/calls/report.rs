//! What is printed of a case: both answers, and the command that runs it again.

use std::io::Write;

use crate::calls::compare::{Answer, Both};
use crate::cases::case::Case;
use crate::cases::replay;

/// Prints without stopping if nobody reads.
pub fn say(text: &str) {
    let _ = writeln!(std::io::stdout().lock(), "{text}");
}

pub fn difference(name: &str, case: &Case, answers: &Both, what: &str) {
    say(&format!("DIFFERENCE in {name}: {what}"));
    say(&format!("  library: {}", brief(&answers.library)));
    say(&format!("  oracle:  {}", brief(&answers.oracle)));
    say(&format!("  tests/run --replay '{}'", replay::text(case)));
}

/// Both answers in full.
pub fn whole(case: &Case, answers: &Both, what: Option<&str>) {
    say(&replay::text(case));
    say(&format!("library: {:?}", answers.library));
    say(&format!("oracle:  {:?}", answers.oracle));
    match what {
        Some(what) => say(&format!("differential: 1 case, 1 differs: {what}")),
        None => say("differential: 1 case, 0 differ"),
    }
}

fn brief(answer: &Answer) -> String {
    match answer {
        Answer::Check { outcome, marks, scratch, arrows } => {
            let (m, s, a) = (digest(marks), digest(scratch), digest(arrows));
            format!("{outcome}, marks {m}, scratch {s}, arrows {a}")
        }
        Answer::Count { outcome, marks, scratch } => {
            let (m, s) = (digest(marks), digest(scratch));
            format!("{outcome}, marks {m}, scratch {s}")
        }
        Answer::Show { outcome, written, marks, scratch, output } => {
            let (m, s, o) = (digest(marks), digest(scratch), digest(output));
            format!("{outcome}, written {written}, marks {m}, scratch {s}, output {o}")
        }
        Answer::Turned { outcome, written, output } => {
            format!("{outcome}, written {written}, output {}", digest(output))
        }
        other => format!("{other:?}"),
    }
}

/// Short buffers whole, long ones by their first numbers.
fn digest<T: std::fmt::Debug>(buffer: &[T]) -> String {
    if buffer.len() <= 24 {
        return format!("{buffer:?}");
    }
    format!("{:?} and {} more", &buffer[..24], buffer.len() - 24)
}
