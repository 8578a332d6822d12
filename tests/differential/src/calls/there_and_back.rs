//! A text that is read is written back as it was; a rule that is written is read as the same tree, left operand first.
//! The library's own calls are asked, and its text is compared with one made here.

use doilystrand::{rule_of, text_of};

use crate::bytes::rule;
use crate::bytes::text::{left_first, text};
use crate::calls::compare::Answer;
use crate::cases::case::Case;

/// What differs, if anything does.
pub fn wrong(case: &Case, answer: &Answer) -> Option<String> {
    let front = answer.turned()?;
    match case {
        Case::Read { text, .. } => read_wrong(text, front),
        Case::Write { rule, .. } => write_wrong(rule, front),
        _ => None,
    }
}

fn read_wrong(typed: &[u8], rule: &[u8]) -> Option<String> {
    match text_of(rule) {
        Ok(back) if back.as_bytes() == typed => None,
        Ok(back) => Some(format!("the rule that is read is written back as {back}")),
        Err(refusal) => Some(format!("the rule that is read is not written back: {refusal}")),
    }
}

fn write_wrong(given: &[u8], written: &[u8]) -> Option<String> {
    let nodes = rule::nodes(given);
    if written != text(&nodes) {
        return Some(format!("written and not {}", String::from_utf8_lossy(&text(&nodes))));
    }
    match rule_of(&String::from_utf8_lossy(written)) {
        Ok(back) if back == rule::bytes(&left_first(&nodes)) => None,
        Ok(_) => Some("the text that is written is read as another rule".into()),
        Err(refusal) => Some(format!("the text that is written is not read: {refusal}")),
    }
}

#[cfg(test)]
mod tests {
    use super::{read_wrong, write_wrong};
    use crate::bytes::rule::{self, node, plain, A, LABEL, TRUE};

    #[test]
    fn only_the_text_itself_comes_back() {
        let rule = rule::bytes(&[plain(TRUE, 0, 0), plain(LABEL, 2, 0), node(A, 1, 0, 1, 14)]);
        assert_eq!(read_wrong(b"A(true U<=14 L2)", &rule), None);
        assert!(read_wrong(b"A(true U<=15 L2)", &rule).is_some_and(|what| what.ends_with("A(true U<=14 L2)")));
        assert!(read_wrong(b"A(true U<=14 L2)", &rule[..30]).is_some_and(|what| what.contains("refused 12 at 0 3")));
    }

    #[test]
    fn only_the_trees_own_text_is_right() {
        let right_first = rule::bytes(&[plain(LABEL, 2, 0), plain(TRUE, 0, 0), node(A, 1, 1, 0, 14)]);
        assert_eq!(write_wrong(&right_first, b"A(true U<=14 L2)"), None);
        assert!(write_wrong(&right_first, b"A(L2 U<=14 true)").is_some());
        assert!(write_wrong(&right_first, b"A(true U<=14 L2) ").is_some());
    }
}
