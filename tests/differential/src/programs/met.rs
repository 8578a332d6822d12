//! What the random pairs of files led to.

use oracle::RULE_READ;

use crate::bytes::rule::{self, EXACTLY};
use crate::programs::files::Files;

const KINDS: [&str; 12] = [
    "listings",
    "refusals of the chart",
    "refusals of the rule",
    "charts read",
    "charts finished at once",
    "overview rows found",
    "overview rows empty",
    "detail rows found",
    "detail rows empty",
    "runs shown",
    "runs refused by 60",
    "listings of a rule with an exact bound",
];

#[derive(Default)]
pub struct Met([u64; KINDS.len()]);

fn of_listing(text: &str) -> usize {
    let Some(refusal) = text.strip_prefix("refused ") else {
        return 0;
    };
    match refusal.split(' ').next().and_then(|number| number.parse().ok()) {
        Some(10..=16) => 2,
        _ => 1,
    }
}

fn of_reader(calls: &str) -> usize {
    if calls.lines().nth(1) == Some("0: finished, then finished") {
        4
    } else {
        3
    }
}

fn of_row(files: &Files, calls: &str) -> usize {
    let detail = files.ask.read(1).iter().any(|&choice| choice != 0);
    let empty = calls.starts_with("row\n");
    5 + 2 * usize::from(detail) + usize::from(empty)
}

fn of_exact_bound(files: &Files, listing: &str) -> Option<usize> {
    let exact = rule::nodes(files.rule.read(RULE_READ)).iter().any(|node| node.kind == EXACTLY);
    (exact && listing.starts_with("states ")).then_some(11)
}

/// None where check refuses, or no run fits.
fn of_why(why: &str) -> Option<usize> {
    if why == "refused 60 at 0 3\n" {
        return Some(10);
    }
    (!why.starts_with("refused ")).then_some(9)
}

impl Met {
    pub fn add(&mut self, files: &Files, [listing, calls]: &[String; 2], why: &str) {
        let always = [of_listing(listing), of_reader(calls), of_row(files, calls)];
        for kind in always.into_iter().chain(of_why(why)).chain(of_exact_bound(files, listing)) {
            self.0[kind] += 1;
        }
    }

    /// What no pair led to.
    pub fn missing(&self) -> Vec<&'static str> {
        KINDS.into_iter().zip(self.0).filter(|(_, count)| *count == 0).map(|(kind, _)| kind).collect()
    }

    pub fn text(&self) -> String {
        KINDS.iter().zip(self.0).map(|(kind, count)| format!("{count:>8} {kind}\n")).collect()
    }
}

#[cfg(test)]
mod tests {
    use super::Met;
    use crate::bytes::rule::{self, node, plain, A, TRUE};
    use crate::named::expected::{just_true, short};
    use crate::programs::asks;
    use crate::programs::files::{Files, Stored};

    fn met(chart: Vec<u8>, rule: Vec<u8>, ask: Vec<u8>, why: &str) -> Vec<&'static str> {
        let files = Files { chart: Stored::Bytes(chart), rule: Stored::Bytes(rule), ask: Stored::Bytes(ask) };
        let mut met = Met::default();
        let all = met.missing();
        met.add(&files, &files.texts(), why);
        let missing = met.missing();
        all.into_iter().filter(|kind| !missing.contains(kind)).collect()
    }

    #[test]
    fn each_pair_counts_for_its_kinds() {
        let (chart, rule) = (short().bytes(), rule::bytes(&just_true()));
        let listed = met(chart.clone(), rule.clone(), asks::bytes(0, 1, 0), "0 at 0: until met at 0\n");
        assert_eq!(listed, ["listings", "charts read", "overview rows found", "runs shown"]);
        let no_chart = met(vec![], rule.clone(), asks::bytes(1, 1, 0), "refused 1 at 0 1\n");
        assert_eq!(no_chart, ["refusals of the chart", "charts finished at once", "detail rows found"]);
        let no_rule = met(chart.clone(), vec![], asks::bytes(255, 1, 0), "refused 10 at 0 3\n");
        assert_eq!(no_rule, ["refusals of the rule", "charts read", "detail rows empty"]);
        let exact = rule::bytes(&[plain(TRUE, 0, 0), plain(TRUE, 0, 0), node(A, 3, 0, 1, 5)]);
        let listed = met(chart.clone(), exact, asks::bytes(0, 1, 0), "refused 61 at 0 5\n");
        assert_eq!(listed[3..], ["listings of a rule with an exact bound"]);
        let nothing_asked = met(chart, rule, vec![], "refused 60 at 0 3\n");
        assert_eq!(nothing_asked, ["listings", "charts read", "overview rows empty", "runs refused by 60"]);
    }
}
