//! Show: which of several runs appears is free, so the run that is written is judged and not compared.

use oracle::{judge_show, ShowCall, Written};

use crate::calls::compare::Answer;
use crate::calls::outcome::Outcome;
use crate::cases::case::Case;

/// What is wrong with the answer to a show, if anything is.
pub fn wrong(case: &Case, answer: &Answer) -> Option<String> {
    let Case::Show { chart, rule, marks, scratch, node, state, output } = case else {
        return None;
    };
    let Answer::Show { outcome, written, marks: marks_after, scratch: scratch_after, output: output_after } = answer
    else {
        return Some("another call's answer".into());
    };
    let (marks, scratch, output) = (marks.bytes(), scratch.numbers(), output.bytes());
    let (node, state) = (*node, *state);
    let call = ShowCall { chart, rule, marks: &marks, scratch: &scratch, node, state, output: &output };
    let Outcome { number, place, entry } = *outcome;
    let answer = Written { outcome: oracle::Outcome { number, place, entry }, written: *written };
    judge_show(&call, answer, marks_after, scratch_after, output_after).err()
}
