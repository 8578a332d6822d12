//! The text of the program that calls row and the chart reader.

use crate::make::{chart, rule, short, ArrowFields, NO_END, TRUE};
use oracle::calls_text;

const SHORT_READ: &str = "\
0: 0 1 5 10, then 1 2 0 4
1: 1 2 0 4, then 2 0 20 65535
2: 2 0 20 65535, then finished
3: finished, then finished
";

const NOTHING_READ: &str = "0: finished, then finished\n";

/// The first line, over a table of 16 bytes and one of 9.
fn row_line(ask: &[u8]) -> String {
    let overview: Vec<u8> = (100..116).collect();
    let detail: Vec<u8> = (0..9).collect();
    let text = calls_text(&overview, &detail, ask);
    text.strip_suffix(NOTHING_READ).expect("these bytes are no chart").to_string()
}

#[test]
fn the_whole_text() {
    let text = calls_text(&short(), &rule(&[TRUE]), &[0, 0, 0, 0, 0]);
    assert_eq!(text, format!("row\n{SHORT_READ}"));
    let text = calls_text(&short(), &rule(&[TRUE]), &[1, 0, 5, 0, 1]);
    assert_eq!(text, format!("row 0 1 0 0 0\n{SHORT_READ}"));
    assert_eq!(calls_text(&[], &[], &[]), format!("row\n{NOTHING_READ}"));
}

#[test]
fn the_row_that_is_asked_for() {
    assert_eq!(row_line(&[0, 0, 4, 0, 3]), "row 112 113 114 115\n");
    assert_eq!(row_line(&[0, 0, 4, 0, 4]), "row\n");
    assert_eq!(row_line(&[0, 0, 5, 0, 3]), "row\n");
    assert_eq!(row_line(&[0, 1, 0, 0, 0]), "row\n");
    assert_eq!(row_line(&[0, 0, 1, 1, 0]), "row\n");
    for choice in [1, 2, 128, 255] {
        assert_eq!(row_line(&[choice, 0, 3, 0, 2]), "row 6 7 8\n");
        assert_eq!(row_line(&[choice, 0, 3, 0, 3]), "row\n");
    }
}

#[test]
fn bytes_missing_from_the_ask_count_as_0() {
    assert_eq!(row_line(&[]), "row\n");
    assert_eq!(row_line(&[1]), "row\n");
    assert_eq!(row_line(&[1, 0]), "row\n");
    assert_eq!(row_line(&[1, 0, 2]), "row 0 1\n");
    assert_eq!(row_line(&[1, 0, 2, 0]), "row 0 1\n");
    assert_eq!(row_line(&[1, 0, 2, 1]), "row\n");
    assert_eq!(row_line(&[1, 0, 2, 0, 1, 7, 7]), "row 2 3\n");
}

#[test]
fn refused_bytes_are_finished_at_once() {
    let longer = [short(), vec![0]].concat();
    assert_eq!(calls_text(&longer, &[], &[0, 0, 40, 0, 0]).lines().nth(1), NOTHING_READ.lines().next());
    let looped = chart(&[0], &[[0, 0, 0, 0]]);
    assert_eq!(calls_text(&looped, &[], &[]), "row\n0: 0 0 0 0, then finished\n1: finished, then finished\n");
}

#[test]
fn the_most_arrows() {
    let arrows: Vec<ArrowFields> = (0..2048).map(|i| [i % 256, 255 - i % 256, i + 1, NO_END]).collect();
    let text = calls_text(&chart(&[0; 256], &arrows), &[], &[]);
    assert_eq!(text.lines().count(), 1 + 2048 + 1);
    assert_eq!(text.lines().nth(2047), Some("2046: 254 1 2047 65535, then 255 0 2048 65535"));
    assert_eq!(text.lines().nth(2048), Some("2047: 255 0 2048 65535, then finished"));
    assert_eq!(text.lines().last(), Some("2048: finished, then finished"));
}
