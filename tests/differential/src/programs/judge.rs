//! What is wrong with what a program did, beside the text it has to print.

use std::process::Output;

use crate::programs::complaint;

/// Lines are shown whole up to this many bytes, longer ones about the first byte that differs.
const SHOWN: usize = 280;
const BEFORE: usize = 60;

/// The text is all that the program has to print; on standard error it follows from that.
pub fn difference(program: &str, ended: &Output, text: impl AsRef<[u8]>) -> Option<String> {
    let text = text.as_ref();
    badly_ended(ended)
        .or_else(|| first_difference(("program", &ended.stdout), ("oracle", text)))
        .or_else(|| other_complaint(program, ended, text))
}

pub fn badly_ended(ended: &Output) -> Option<String> {
    (!ended.status.success()).then(|| format!("ended with {}", ended.status))
}

/// Of a program that printed this text, which is right.
pub fn other_complaint(program: &str, ended: &Output, text: &[u8]) -> Option<String> {
    let complaint = complaint::of(program, text);
    let what = first_difference(("program", &ended.stderr), ("words", complaint.as_bytes()))?;
    Some(format!("standard error, {what}"))
}

/// Whose text it is, and the text.
type Side<'a> = (&'a str, &'a [u8]);

/// The first line that differs, of both.
pub fn first_difference((one, x): Side, (other, y): Side) -> Option<String> {
    if x == y {
        return None;
    }
    let (x, y) = (lines(x), lines(y));
    let equal = x.iter().zip(&y).take_while(|(x, y)| x == y).count();
    let (x, y) = (x.get(equal).copied(), y.get(equal).copied());
    let from = excerpt_start(x.unwrap_or(&[]), y.unwrap_or(&[]));
    let (x, y) = (excerpt(x, from), excerpt(y, from));
    Some(format!("line {}, from byte {from}\n  {one}: {x}\n  {other}: {y}", equal + 1))
}

/// Each with its line end, so that a missing one shows.
fn lines(text: &[u8]) -> Vec<&[u8]> {
    text.split_inclusive(|&byte| byte == b'\n').collect()
}

fn excerpt_start(x: &[u8], y: &[u8]) -> usize {
    if x.len().max(y.len()) <= SHOWN {
        return 0;
    }
    let equal = x.iter().zip(y).take_while(|(x, y)| x == y).count();
    equal.saturating_sub(BEFORE)
}

fn excerpt(line: Option<&[u8]>, from: usize) -> String {
    let Some(line) = line else {
        return "no such line".into();
    };
    let rest = &line[from.min(line.len())..];
    let shown = &rest[..rest.len().min(SHOWN)];
    let more = if shown.len() < rest.len() { " and more" } else { "" };
    format!("{:?}{more}", String::from_utf8_lossy(shown))
}

#[cfg(test)]
mod tests {
    use super::{difference, first_difference};
    use std::os::unix::process::ExitStatusExt;
    use std::process::{ExitStatus, Output};

    fn ended(wait_status: i32, stdout: &str, stderr: &str) -> Output {
        let status = ExitStatus::from_raw(wait_status);
        Output { status, stdout: stdout.into(), stderr: stderr.into() }
    }

    #[test]
    fn only_the_text_alone_and_status_0_are_right() {
        let difference = |status, stdout, stderr| difference("desk", &ended(status, stdout, stderr), "a\n");
        assert_eq!(difference(0, "a\n", ""), None);
        assert_eq!(difference(3 << 8, "a\n", "").as_deref(), Some("ended with exit status: 3"));
        assert!(difference(11, "a\n", "").is_some_and(|what| what.contains("signal: 11")));
        assert!(difference(0, "a\n", "b").is_some_and(|what| what.contains("standard error") && what.contains("\"b\"")));
        assert!(difference(0, "b\n", "").is_some());
    }

    fn said(x: &[u8], y: &[u8]) -> String {
        first_difference(("a", x), ("b", y)).unwrap_or_default()
    }

    #[test]
    fn the_first_line_that_differs() {
        assert_eq!(said(b"1\n2\n3\n", b"1\n4\n5\n"), "line 2, from byte 0\n  a: \"2\\n\"\n  b: \"4\\n\"");
        assert_eq!(said(b"1\n", b"1"), "line 1, from byte 0\n  a: \"1\\n\"\n  b: \"1\"");
        assert_eq!(said(b"", b"1"), "line 1, from byte 0\n  a: no such line\n  b: \"1\"");
        assert_eq!(said(b"1\n2", b"1\n"), "line 2, from byte 0\n  a: \"2\"\n  b: no such line");
        assert_eq!(said(b"1\n", b"1\n"), "");
    }

    #[test]
    fn bytes_that_are_no_text_differ_too() {
        assert_ne!(said(&[0xFF], &[0xFE]), "");
    }

    #[test]
    fn a_long_line_is_shown_about_the_difference() {
        let text = said(&[b'x'; 1_000], &[[b'x'; 500].as_slice(), b"y"].concat());
        assert!(text.starts_with("line 1, from byte 440\n"), "{text}");
        assert!(text.contains("x\" and more") && text.ends_with("xy\""), "{text}");
    }
}
