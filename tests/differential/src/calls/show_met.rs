//! What the shows met: every form of a node, runs about the longest, buffers about the shortest that are enough.

use oracle::fewest_steps;

use crate::bytes::rule::{self, A, AT_LEAST, AT_MOST, E, EXACTLY};
use crate::calls::compare::Answer;
use crate::cases::case::Case;

pub const KINDS: [&str; 40] = [
    "E at most shown",
    "E at least shown",
    "E exactly shown",
    "A at most shown",
    "unmarked E at most refused",
    "unmarked E at least refused",
    "unmarked E exactly refused",
    "marked A at most refused",
    "marked A at least refused",
    "marked A exactly refused",
    "unmarked A at least refused",
    "unmarked A exactly refused",
    "node that is no until refused",
    "node out of range",
    "state out of range",
    "no step",
    "E at most, 255 steps",
    "E at least, 256 steps",
    "E exactly, 256 steps",
    "A at most, 256 steps",
    "E at least, above 256 steps",
    "E exactly, above 256 steps",
    "A at most, above 256 steps",
    "E past the second operand",
    "E exactly, another position of the same moment before",
    "A up to where neither holds",
    "A up to above c",
    "A up to above c, the second operand there",
    "duration above 65,535",
    "output just enough",
    "output a byte short",
    "output empty",
    "scratch of 257n numbers",
    "scratch of 257n − 1 numbers",
    "scratch of 4n numbers",
    "scratch of 4n − 1 numbers",
    "exact bound, scratch of 256n numbers",
    "exact bound, scratch of 256n − 1 numbers",
    "exact bound, refused by 60",
    "refused by 60 with scratch and output short",
];

/// Bytes that are enough for every run.
const MAX_RUN: usize = 257 * 6;

/// What is asked of an accepted chart and rule.
struct Asked<'a> {
    n: usize,
    node: usize,
    state: usize,
    /// Operation, bound kind, second operand and c of the node; none where the node is out of range.
    until: Option<(u8, u8, usize, u64)>,
    marks: &'a [u8],
}

impl Asked<'_> {
    fn marked(&self, node: usize, state: usize) -> bool {
        self.marks.get(node * self.n + state) == Some(&1)
    }

    fn refused(&self) -> &'static str {
        let Some((operation, kind, ..)) = self.until else {
            return "node out of range";
        };
        if self.state >= self.n {
            return "state out of range";
        }
        match (operation, kind, self.marked(self.node, self.state)) {
            (E, AT_MOST, false) => "unmarked E at most refused",
            (E, AT_LEAST, false) => "unmarked E at least refused",
            (E, EXACTLY, false) => "unmarked E exactly refused",
            (A, AT_MOST, true) => "marked A at most refused",
            (A, AT_LEAST, true) => "marked A at least refused",
            (A, AT_LEAST, false) => "unmarked A at least refused",
            (A, EXACTLY, true) => "marked A exactly refused",
            (A, EXACTLY, false) => "unmarked A exactly refused",
            // Nothing that is to be met.
            (E | A, ..) => "a mark that has a run",
            _ => "node that is no until refused",
        }
    }

    fn shown(&self, run: &[u8]) -> Vec<&'static str> {
        let number = |bytes: &[u8]| bytes.iter().fold(0, |number, &byte| number << 8 | u64::from(byte));
        let positions: Vec<(usize, u64)> =
            run.chunks_exact(6).map(|x| (number(&x[..2]) as usize, number(&x[2..]))).collect();
        let (Some((operation, kind, second, c)), Some((last, earlier))) = (self.until, positions.split_last()) else {
            return Vec::new();
        };
        let minutes: u64 = earlier.iter().map(|(_, duration)| duration).sum();
        let steps = earlier.len();
        let (shown, longest) = match (operation, kind) {
            (E, AT_MOST) => ("E at most shown", (255, "E at most, 255 steps")),
            (E, AT_LEAST) => ("E at least shown", (256, "E at least, 256 steps")),
            (E, _) => ("E exactly shown", (256, "E exactly, 256 steps")),
            _ => ("A at most shown", (256, "A at most, 256 steps")),
        };
        let mut met = vec![shown];
        met.extend((steps == 0).then_some("no step"));
        met.extend((steps == longest.0).then_some(longest.1));
        let same_moment = kind == EXACTLY && earlier.last().is_some_and(|&(_, duration)| duration == 0);
        met.extend(same_moment.then_some("E exactly, another position of the same moment before"));
        let passed = earlier.iter().any(|&(state, _)| self.marked(second, state));
        met.extend((operation == E && passed).then_some("E past the second operand"));
        met.extend((operation == A && minutes <= c).then_some("A up to where neither holds"));
        met.extend((operation == A && minutes > c).then_some("A up to above c"));
        let there = operation == A && minutes > c && self.marked(second, last.0);
        met.extend(there.then_some("A up to above c, the second operand there"));
        met.extend(earlier.iter().any(|&(_, duration)| duration > 65_535).then_some("duration above 65,535"));
        met
    }

    /// No run of at most 256 steps fits an output of this length.
    fn unfit(&self, output: usize, fewest: impl Fn() -> Option<usize>) -> Option<&'static str> {
        if output >= MAX_RUN {
            return match self.until {
                Some((E, EXACTLY, ..)) => Some("E exactly, above 256 steps"),
                Some((E, ..)) => Some("E at least, above 256 steps"),
                _ => Some("A at most, above 256 steps"),
            };
        }
        if output == 0 {
            return Some("output empty");
        }
        // Only these lengths are a byte short of some run's.
        (output % 6 == 5 && fewest().is_some_and(|steps| 6 * (steps + 1) == output + 1))
            .then_some("output a byte short")
    }
}

/// The numbers that check wants before show does, and whether an exact bound makes them more.
fn wanted_by_check(rule: &[u8], n: usize) -> (usize, bool) {
    let wanted = rule::check_scratch(&rule::nodes(rule), n);
    (wanted, wanted > 4 * n)
}

/// Those that a show met.
pub fn kinds(case: &Case, answer: &Answer) -> Vec<&'static str> {
    let Case::Show { chart, rule, scratch, node, state, output, .. } = case else {
        return Vec::new();
    };
    let Answer::Show { outcome, written, marks, output: shown, .. } = answer else {
        return Vec::new();
    };
    let n = chart.get(5..7).map_or(0, |two| usize::from(u16::from_be_bytes([two[0], two[1]])));
    let (wanted, exact) = wanted_by_check(rule, n);
    if outcome.number == 18 && scratch.length + 1 == wanted {
        return vec![if exact { "exact bound, scratch of 256n − 1 numbers" } else { "scratch of 4n − 1 numbers" }];
    }
    if !matches!(outcome.number, 0 | 60..=62) {
        return Vec::new();
    }
    let found = rule.get(7..).and_then(|nodes| nodes.chunks_exact(8).nth(*node));
    let until = found.map(|x| (x[0], x[1], usize::from(x[5]), u64::from(u16::from_be_bytes([x[6], x[7]]))));
    let asked = Asked { n, node: *node, state: *state, until, marks };
    match outcome.number {
        0 => {
            let mut met = asked.shown(&shown[..*written]);
            met.extend((*written == output.length).then_some("output just enough"));
            met.extend((scratch.length == 257 * n).then_some("scratch of 257n numbers"));
            met
        }
        60 => {
            let short = scratch.length < 257 * n && output.length < 6;
            let both = short.then_some("refused by 60 with scratch and output short");
            let exact = exact.then_some("exact bound, refused by 60");
            [Some(asked.refused()), exact, both].into_iter().flatten().collect()
        }
        61 if scratch.length + 1 == 257 * n => vec!["scratch of 257n − 1 numbers"],
        61 if scratch.length == wanted && exact => vec!["exact bound, scratch of 256n numbers"],
        61 if scratch.length == wanted => vec!["scratch of 4n numbers"],
        62 => asked.unfit(output.length, || fewest_steps(chart, rule, *node, *state)).into_iter().collect(),
        _ => Vec::new(),
    }
}

#[cfg(test)]
mod tests {
    use super::{kinds, KINDS};
    use crate::calls::compare::oracle;
    use crate::calls::met::Met;
    use crate::named::shows;
    use crate::random::generate;

    /// Of a named case, by its name.
    fn met(name: &str) -> Vec<&'static str> {
        let mut list = Vec::new();
        shows::all(&mut list);
        let case = &list.iter().find(|test| test.name == name).expect(name).case;
        kinds(case, &oracle::run(case))
    }

    #[test]
    fn each_show_counts_for_its_kinds() {
        let enough = ["output just enough", "scratch of 257n numbers"];
        assert_eq!(met("row 62 passed: 18 bytes"), [&["E at most shown"], &enough[..]].concat());
        let late = ["A at most shown", "A up to above c", "A up to above c, the second operand there"];
        assert_eq!(met("Short, A(true until L2, at most 13): it ends where L2 holds"), [&late[..], &enough].concat());
        assert_eq!(met("row 60: A at least, unmarked"), ["unmarked A at least refused"]);
        assert_eq!(
            met("60 goes before 61 and 62"),
            ["node out of range", "refused by 60 with scratch and output short"]
        );
        assert_eq!(met("row 61: n = 3, 770 numbers"), ["scratch of 257n − 1 numbers"]);
        assert_eq!(met("row 62: 17 bytes"), ["output a byte short"]);
        assert_eq!(met("row 62: 12 bytes"), [""; 0]);
        assert_eq!(met("A at most 256 in single minutes"), ["A at most, above 256 steps"]);
    }

    #[test]
    fn a_kind_is_missing_until_it_is_met() {
        let mut all = Met::of(KINDS);
        assert!(all.missing().eq(KINDS));
        for number in 0..2_000 {
            let case = generate::random(1, number);
            let answer = oracle::run(&case);
            let kinds = kinds(&case, &answer);
            all.add(&kinds);
            assert!(kinds.iter().all(|kind| KINDS.contains(kind)), "{kinds:?}");
            assert!(all.missing().all(|kind| !kinds.contains(&kind)));
        }
        assert!(all.missing().count() < KINDS.len() / 2);
    }
}
