//! Count fills the marks table as check does: the library's own check is called on what a count was lent.

use doilystrand::check;

use crate::calls::compare::Answer;
use crate::calls::outcome::Outcome;
use crate::cases::case::Case;

/// What differs, if anything does. Only 18 and 63 are not check's: with all of count's scratch check has enough, and 17 goes
/// before either's 18.
pub fn wrong(case: &Case, answer: &Answer) -> Option<String> {
    let Case::Count { chart, rule, marks, scratch } = case else {
        return None;
    };
    let Answer::Count { outcome: by_count, marks: counted, .. } = answer else {
        return Some("another call's answer".into());
    };
    if matches!(by_count.number, 18 | 63) {
        return None;
    }
    let mut marks = marks.bytes();
    let by_check = Outcome::from(check(chart, rule, &mut marks, &mut scratch.numbers()));
    if by_check != *by_count {
        return Some(format!("{by_check} by check, {by_count} by count"));
    }
    (marks != *counted).then(|| "other marks by count than by check".into())
}

#[cfg(test)]
mod tests {
    use super::wrong;
    use crate::bytes::rule::{plain, LABEL};
    use crate::calls::compare::{doilystrand, Answer};
    use crate::calls::outcome::Outcome;
    use crate::named::expected::{exact_count, short};

    #[test]
    fn only_the_answer_of_check_is_right() {
        let case = exact_count(&short(), &[plain(LABEL, 2, 0)]);
        assert_eq!(wrong(&case, &doilystrand::run(&case)), None);
        let differs = |number, entry, marks: [u8; 3]| {
            let outcome = Outcome { number, place: 0, entry };
            wrong(&case, &Answer::Count { outcome, marks: marks.to_vec(), scratch: Vec::new() }).is_some()
        };
        assert!(!differs(0, 0, [0, 0, 1]));
        assert!(differs(0, 0, [0, 1, 1]));
        assert!(differs(0, 1, [0, 0, 1]));
        assert!(differs(19, 1, [0, 0, 1]));
        assert!(!differs(18, 5, [0; 3]) && !differs(63, 3, [0; 3]));
    }
}
