//! How often nodes of each form were marked and how often not, in what check and count accepted.

use crate::bytes::rule::{Node, A, AT_LEAST, AT_MOST, E};
use crate::cases::case::{CALLS, CHECK, COUNT};

const FORMS: [&str; 11] = [
    "true",
    "label",
    "not",
    "and",
    "or",
    "E at most",
    "E at least",
    "E exactly",
    "A at most",
    "A at least",
    "A exactly",
];

/// Places in `CALLS` of those that leave marks.
const MARKING: [usize; 2] = [CHECK, COUNT];

/// By call and form the marks that are 0 and those that are 1.
pub struct MarksMet([[[u64; 2]; FORMS.len()]; MARKING.len()]);

fn form(node: &Node) -> usize {
    match (node.operation, node.kind) {
        (E, AT_MOST) => 5,
        (E, AT_LEAST) => 6,
        (E, _) => 7,
        (A, AT_MOST) => 8,
        (A, AT_LEAST) => 9,
        (A, _) => 10,
        (other, _) => other as usize,
    }
}

impl MarksMet {
    pub fn new() -> MarksMet {
        MarksMet([[[0; 2]; FORMS.len()]; MARKING.len()])
    }

    /// The marks of all nodes, n a node. A wrong acceptance may come with a node of no form.
    pub fn add(&mut self, call: usize, nodes: &[Node], marks: &[u8], n: usize) {
        let Some(forms) = MARKING.iter().position(|&marking| marking == call).map(|at| &mut self.0[at]) else {
            return;
        };
        for (node, row) in nodes.iter().zip(marks.chunks(n.max(1))) {
            let ones = row.iter().filter(|&&mark| mark == 1).count();
            if let Some([unmarked, marked]) = forms.get_mut(form(node)) {
                *unmarked += (row.len() - ones) as u64;
                *marked += ones as u64;
            }
        }
    }

    /// What no node of a form ever was, of either call; true is never unmarked.
    pub fn missing(&self) -> Vec<String> {
        let mut missing = Vec::new();
        for (call, forms) in MARKING.iter().zip(&self.0) {
            for (form, [unmarked, marked]) in FORMS.iter().zip(forms).skip(1) {
                let sides = [("unmarked", unmarked), ("marked", marked)].into_iter().filter(|(_, count)| **count == 0);
                missing.extend(sides.map(|(side, _)| format!("{form} that is {side}, of {}", CALLS[*call])));
            }
        }
        missing
    }

    pub fn text(&self) -> String {
        let heads = MARKING.map(|call| format!("  {:>11} {:>11}", CALLS[call], "")).concat();
        let under = MARKING.map(|_| format!("  {:>11} {:>11}", "marked", "not")).concat();
        let mut text = format!("{:>12}{}\n{:>12}{under}\n", "marks of", heads.trim_end(), "");
        for (at, form) in FORMS.iter().enumerate() {
            let cells = self.0.iter().map(|forms| format!("  {:>11} {:>11}", forms[at][1], forms[at][0]));
            text += &format!("{form:>12}{}\n", cells.collect::<String>());
        }
        text
    }
}

#[cfg(test)]
mod tests {
    use super::{MarksMet, FORMS};
    use crate::bytes::rule::{self, node, plain, A, E, EXACTLY, LABEL};
    use crate::calls::compare::{oracle, Answer};
    use crate::calls::run::named_but_large;
    use crate::cases::case::{Case, CHECK, COUNT, SHOW};

    #[test]
    fn each_mark_counts_for_its_form_and_call() {
        let mut met = MarksMet::new();
        assert_eq!(met.missing().len(), 4 * (FORMS.len() - 1));
        let nodes = [plain(LABEL, 0, 0), node(E, EXACTLY, 0, 0, 0), node(A, EXACTLY, 0, 0, 0)];
        met.add(COUNT, &nodes, &[0, 1, 1, 1, 0, 0], 2);
        met.add(SHOW, &nodes, &[0, 1, 0, 1, 0, 1], 2);
        let missing = met.missing();
        let has = |what: &str| missing.iter().any(|name| name == what);
        assert!(has("label that is marked, of check") && !has("label that is marked, of count"));
        assert!(has("E exactly that is unmarked, of count") && !has("E exactly that is marked, of count"));
        assert!(!has("A exactly that is unmarked, of count") && has("A exactly that is marked, of count"));
        met.add(CHECK, &nodes, &[0, 1, 1, 0, 1, 0], 2);
        assert_eq!(met.missing().len(), missing.len() - 6);
    }

    /// So that the four of exact bounds, and all others, are met however few the random cases are.
    #[test]
    fn the_named_cases_leave_none_missing() {
        let mut met = MarksMet::new();
        for test in named_but_large() {
            let (Case::Check { chart, rule, .. } | Case::Count { chart, rule, .. }) = &test.case else { continue };
            if let Answer::Check { outcome, marks, .. } | Answer::Count { outcome, marks, .. } = oracle::run(&test.case)
            {
                let accepted = outcome.number == 0;
                let n = if accepted { u16::from_be_bytes([chart[5], chart[6]]) as usize } else { continue };
                met.add(test.case.call(), &rule::nodes(rule), &marks, n);
            }
        }
        assert_eq!(met.missing(), [""; 0]);
    }
}
