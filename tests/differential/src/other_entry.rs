//! What differs in its entry alone is told as different: of every call, every named case and every program.

use std::collections::BTreeSet;
use std::os::unix::process::ExitStatusExt;
use std::process::{ExitStatus, Output};

use crate::calls::compare::{oracle, Answer, Both};
use crate::calls::run::named_but_large;
use crate::cases::case::CALLS;
use crate::programs::complaint;
use crate::programs::files::PROGRAMS;
use crate::programs::judge;
use crate::programs::limits::files;
use crate::programs::typed::{RULE, TEXT};
use crate::programs::why::{Why, WHY};

/// None for a row, which has no entry.
fn with_other_entry(answer: &Answer) -> Option<Answer> {
    let mut other = answer.clone();
    match &mut other {
        Answer::Check { outcome, .. }
        | Answer::Count { outcome, .. }
        | Answer::Kind { outcome, .. }
        | Answer::Map { outcome }
        | Answer::Show { outcome, .. }
        | Answer::Turned { outcome, .. } => outcome.entry += 1,
        Answer::Row(_) | Answer::Stopped => return None,
    }
    Some(other)
}

#[test]
fn in_every_call_and_named_case() {
    let mut calls = BTreeSet::new();
    for test in named_but_large() {
        let answer = oracle::run(&test.case);
        let Some(other) = with_other_entry(&answer) else {
            continue;
        };
        let agrees = |library: &Answer| Both { library: library.clone(), oracle: answer.clone() }.agree();
        assert!(agrees(&answer) && !agrees(&other), "{}", test.name);
        assert!(test.met(&answer) && !test.met(&other), "{}", test.name);
        calls.insert(test.case.call());
    }
    assert_eq!(calls.len(), CALLS.len() - 1, "all but row");
}

/// A program that printed one text, and said on standard error what goes with another.
fn ended(program: &str, stdout: &str, complained: &str) -> Output {
    let stderr = complaint::of(program, complained.as_bytes()).into_bytes();
    Output { status: ExitStatus::from_raw(0), stdout: stdout.into(), stderr }
}

#[test]
fn in_what_every_program_prints() {
    let (right, other) = ("refused 1 at 0 1\n", "refused 1 at 0 2\n");
    for program in [PROGRAMS[0], RULE, TEXT] {
        let differs = |stdout, complained| {
            let ended = ended(program, stdout, complained);
            judge::difference(program, &ended, right).is_some()
        };
        assert!(!differs(right, right) && differs(other, right) && differs(right, other), "{program}");
    }
    let why = Why { node: 0, state: 0, written: None };
    let differs = |stdout, complained| why.text(&files(vec![], vec![]), &ended(WHY, stdout, complained)).is_err();
    assert!(!differs(right, right) && differs(other, right) && differs(right, other));
}
