//! What the program prints that calls row and the chart reader.

use crate::answers::{ArrowWords, Choice};
use crate::bytes::{byte_at, word_at};
use crate::reader::Reader;
use crate::row::row;

/// The bytes of an ask: the choice, n and t.
pub const ASK_READ: usize = 5;

/// The whole output for these bytes: the row that is asked for, then what a reader that goes through the chart hands out
/// at each number and after it.
pub fn calls_text(chart: &[u8], rule: &[u8], ask: &[u8]) -> String {
    let mut text = row_line(chart, rule, ask);
    let mut reader = Reader::new(chart, 0);
    loop {
        let number = reader.number();
        let handed = reader.next();
        text.push_str(&format!("{number}:{}, then{}\n", words(handed), words(reader.peek())));
        if handed.is_none() {
            return text;
        }
    }
}

/// The bytes of chart and rule stand for the overview and the detail table. What is missing from the ask reads as 0.
fn row_line(overview: &[u8], detail: &[u8], ask: &[u8]) -> String {
    let choice = match byte_at(ask, 0) {
        0 => Choice::Overview,
        _ => Choice::Detail,
    };
    let (n, t) = (usize::from(word_at(ask, 1)), usize::from(word_at(ask, 3)));
    let part = row(overview, detail, choice, n, t);
    let bytes: String = part.iter().map(|byte| format!(" {byte}")).collect();
    format!("row{bytes}\n")
}

fn words(handed: Option<ArrowWords>) -> String {
    match handed {
        Some(ArrowWords { start, end, fewest, most }) => format!(" {start} {end} {fewest} {most}"),
        None => " finished".to_string(),
    }
}
