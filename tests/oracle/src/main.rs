//! The calls from a command line.

use oracle::{calls_text, counted_listing, judge_why, kind_of_rule, listing, map_check, refused_line, why_text};
use oracle::{rule_text, typed_rule, Kind, ASK_READ, CHART_READ, RULE_READ, TEXT_READ};
use std::ffi::{OsStr, OsString};
use std::fs::File;
use std::io::{Read, Write};
use std::process::ExitCode;

const USAGE: &str = "usage: oracle check CHART RULE | oracle kind RULE | oracle map DETAIL OVERVIEW MAP
       oracle count CHART RULE | oracle calls CHART RULE ASK | oracle why CHART RULE NODE STATE
       oracle judge-why CHART RULE NODE STATE TEXT
       oracle read-rule TEXTFILE | oracle write-rule RULE";

fn main() -> ExitCode {
    let words: Vec<OsString> = std::env::args_os().skip(1).collect();
    match answer(&words) {
        Some(Ok(text)) => match std::io::stdout().write_all(&text) {
            Ok(()) => ExitCode::SUCCESS,
            Err(_) => ExitCode::FAILURE,
        },
        Some(Err(wrong)) => {
            eprintln!("{wrong}");
            ExitCode::FAILURE
        }
        None => {
            eprintln!("{USAGE}");
            ExitCode::from(2)
        }
    }
}

/// What is printed, or what a judge finds wrong; None asks for the usage.
fn answer(words: &[OsString]) -> Option<Result<Vec<u8>, String>> {
    let (call, given) = words.split_first()?;
    match (call.to_str()?, given) {
        ("judge-why", [chart, rule, node, state, text]) => {
            let (chart, rule, text) = (read(chart, CHART_READ), read(rule, RULE_READ), whole(text));
            let judged = judge_why(&chart, &rule, number(node)?, number(state)?, &String::from_utf8_lossy(&text));
            Some(judged.map(|()| Vec::new()))
        }
        ("read-rule", [text]) => Some(Ok(typed(&read(text, TEXT_READ)))),
        ("write-rule", [rule]) => Some(Ok(rule_text(&read(rule, RULE_READ)))),
        (call, given) => printed(call, given).map(|text| Ok(text.into_bytes())),
    }
}

fn printed(call: &str, given: &[OsString]) -> Option<String> {
    match (call, given) {
        ("check", [chart, rule]) => Some(listing(&read(chart, CHART_READ), &read(rule, RULE_READ))),
        ("count", [chart, rule]) => Some(counted_listing(&read(chart, CHART_READ), &read(rule, RULE_READ))),
        ("kind", [rule]) => Some(kind_line(&whole(rule))),
        ("map", [detail, overview, map]) => Some(map_line(&whole(detail), &whole(overview), &whole(map))),
        ("calls", [chart, rule, ask]) => {
            Some(calls_text(&read(chart, CHART_READ), &read(rule, RULE_READ), &read(ask, ASK_READ)))
        }
        ("why", [chart, rule, node, state]) => {
            Some(why_text(&read(chart, CHART_READ), &read(rule, RULE_READ), number(node)?, number(state)?))
        }
        _ => None,
    }
}

/// What desk_rule prints; the rule that it writes to a file is told in one line.
fn typed(input: &[u8]) -> Vec<u8> {
    let answer = typed_rule(input);
    match answer.file {
        Some(rule) => format!("{}\n", rule.iter().map(|byte| format!("{byte:02X}")).collect::<String>()).into_bytes(),
        None => answer.printed,
    }
}

fn kind_line(rule: &[u8]) -> String {
    let answer = kind_of_rule(rule);
    if answer.outcome.number != 0 {
        return refused_line(answer.outcome);
    }
    let word = match answer.kind {
        Kind::AllRuns => "all-runs",
        Kind::SomeRun => "some-run",
        Kind::Both => "both",
        Kind::Neither => "neither",
    };
    format!("{word}\n")
}

fn map_line(detail: &[u8], overview: &[u8], map: &[u8]) -> String {
    match map_check(detail, overview, map) {
        outcome if outcome.number != 0 => refused_line(outcome),
        _ => "covered\n".to_string(),
    }
}

fn number(word: &OsStr) -> Option<usize> {
    word.to_str()?.parse().ok()
}

/// Only the reading of the desk's programs has a bound.
fn whole(path: &OsStr) -> Vec<u8> {
    read(path, usize::MAX)
}

/// The first bytes of a file; one that can't be opened counts as empty, and reading ends at a failure.
fn read(path: &OsStr, most: usize) -> Vec<u8> {
    let mut bytes = Vec::new();
    if let Ok(file) = File::open(path) {
        let _ = file.take(most as u64).read_to_end(&mut bytes);
    }
    bytes
}
