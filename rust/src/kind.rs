//! Kind of rule.

use crate::{call, Outcome};

/// The kinds a rule can be of.
#[derive(Clone, Copy, Debug, PartialEq, Eq)]
pub enum Kind {
    AllRuns,
    SomeRun,
    Both,
    Neither,
}

/// A rule's refusal, or success, and its kind; neither on a refusal.
#[must_use = "a refusal is told nowhere else"]
#[derive(Clone, Copy, Debug, PartialEq, Eq)]
pub struct KindAnswer {
    pub outcome: Outcome,
    pub kind: Kind,
}

/// Whether a rule is of the all-runs kind, the some-run kind, both or neither.
///
/// ```
/// use doilystrand::{kind_of_rule, Kind};
///
/// let rule = [1, 0, 0, 0, 15, 0, 1, 0, 0, 0, 0, 0, 0, 0, 0]; // true
/// assert_eq!(kind_of_rule(&rule).kind, Kind::Both);
///
/// let cut = kind_of_rule(&rule[..14]);
/// assert_eq!((cut.outcome.number, cut.kind), (12, Kind::Neither));
/// ```
#[must_use = "it only answers"]
pub fn kind_of_rule(rule: &[u8]) -> KindAnswer {
    // SAFETY: the pointer comes with the length of its slice, which is only read.
    let coded = unsafe { call::doilystrand_kind_of_rule(rule.as_ptr(), rule.len()) };
    KindAnswer { outcome: coded.outcome.of_call(&[10..=16]), kind: kind_of(coded.kind) }
}

fn kind_of(code: u32) -> Kind {
    match code {
        0 => Kind::Neither,
        1 => Kind::AllRuns,
        2 => Kind::SomeRun,
        3 => Kind::Both,
        _ => panic!("the library answers kind {code}, which is none of 0 to 3"),
    }
}

#[cfg(test)]
mod tests {
    use super::*;
    use crate::samples::{largest_rule, WITHIN_13};

    #[test]
    fn codes_are_the_headers() {
        let header = include_str!("../../include/doilystrand.h");
        let named = [
            ("NEITHER", Kind::Neither),
            ("ALL_RUNS", Kind::AllRuns),
            ("SOME_RUN", Kind::SomeRun),
            ("BOTH", Kind::Both),
        ];
        for (name, kind) in named {
            let start = format!("DOILYSTRAND_{name} = ");
            let code = header.lines().find_map(|line| line.trim().strip_prefix(&start)).expect(name);
            assert_eq!(kind_of(code.trim_end_matches(',').parse().expect(name)), kind);
        }
    }

    #[test]
    #[should_panic = "the library answers kind 4, which is none of 0 to 3"]
    fn unknown_kind_panics() {
        kind_of(4);
    }

    #[test]
    fn kinds_are_told() {
        assert_eq!(kind_of_rule(WITHIN_13).kind, Kind::AllRuns);
        assert_eq!(kind_of_rule(&largest_rule()).kind, Kind::Both);
        assert_eq!(
            kind_of_rule(&[]),
            KindAnswer { outcome: Outcome { number: 10, place: 0, entry: 3 }, kind: Kind::Neither }
        );
    }
}
