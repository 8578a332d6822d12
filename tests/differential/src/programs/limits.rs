//! Named files with the texts that both programs have to print: they and the oracle are held to them. Here the paper's
//! own listing, and files that can't be read.

use crate::bytes::chart::{arrow, Arrow, Chart};
use crate::bytes::rule::{self, node, plain, A, LABEL, TRUE};
use crate::named::expected::short;
use crate::programs::asks;
use crate::programs::files::{Files, Pair, Stored};
use crate::programs::limits_length;
use crate::programs::limits_rows;
use crate::programs::limits_why;
use crate::programs::why::Why;

pub type List = Vec<Pair>;

pub fn add(list: &mut List, name: &str, files: Files, listing: &str, calls: String) {
    let why = Why { node: 2, state: 0, written: None };
    list.push(Pair { name: name.into(), files, why, written: Some([listing.into(), calls]) });
}

/// Without an ask, which is for the row of n = 0.
pub fn files(chart: Vec<u8>, rule: Vec<u8>) -> Files {
    Files { chart: Stored::Bytes(chart), rule: Stored::Bytes(rule), ask: Stored::Missing }
}

/// The text of desk_test_calls, given the row and all that the reader hands out.
pub fn calls(row: &[u8], arrows: &[Arrow]) -> String {
    let row: String = row.iter().map(|byte| format!(" {byte}")).collect();
    let mut handed: Vec<String> =
        arrows.iter().map(|a| format!("{} {} {} {}", a.start, a.end, a.fewest, a.most)).collect();
    handed.extend(["finished".into(), "finished".into()]);
    let lines = handed.windows(2).enumerate().map(|(i, two)| format!("{i}: {}, then {}\n", two[0], two[1]));
    format!("row{row}\n{}", lines.collect::<String>())
}

const LISTING: &str = "states 3 nodes 3
0 111
1 001
2 011
";

pub const SHORT_CALLS: &str = "row
0: 0 1 5 10, then 1 2 0 4
1: 1 2 0 4, then 2 0 20 65535
2: 2 0 20 65535, then finished
3: finished, then finished
";

/// The rule of the paper's listing.
fn listed_rule() -> Vec<u8> {
    rule::bytes(&[plain(TRUE, 0, 0), plain(LABEL, 2, 0), node(A, 1, 0, 1, 13)])
}

fn papers(list: &mut List) {
    let listed = Files { ask: Stored::Bytes(asks::bytes(0, 0, 0)), ..files(short().bytes(), listed_rule()) };
    add(list, "the paper's listing", listed, LISTING, SHORT_CALLS.into());
    let bare = Chart { labels: vec![0; 3], arrows: vec![arrow(0, 1, 1, 1), arrow(1, 0, 1, 1)] };
    let refused = files(bare.bytes(), listed_rule());
    add(list, "the paper's refusal", refused, "refused 9 at 2 1\n", calls(&[], &[]));
}

/// The reader asks for 1 to 9 alone.
fn timelocks(list: &mut List) {
    let mut test = |name: &str, n: usize, arrows: Vec<Arrow>, listing: &str| {
        let calls = calls(&[], &arrows);
        add(list, name, files(Chart { labels: vec![0; n], arrows }.bytes(), listed_rule()), listing, calls);
    };
    test("a 0 to 0 self loop", 1, vec![arrow(0, 0, 0, 0)], "refused 19 at 0 1\n");
    let beside_1 = |most| vec![arrow(0, 0, 1, 1), arrow(1, 0, 1, 1), arrow(2, 2, 0, most)];
    test("a 0 to 0 loop of state 2", 3, beside_1(0), "refused 19 at 2 1\n");
    test("a 0 to 1 loop of state 2", 3, beside_1(1), "states 3 nodes 3\n0 111\n1 000\n2 000\n");
    test("a self loop of 0 to 3", 1, vec![arrow(0, 0, 0, 3)], "states 1 nodes 3\n0 1\n1 0\n2 0\n");
    let handing = vec![arrow(0, 1, 0, 3), arrow(1, 0, 0, 3)];
    test("0 to 3 minutes each way", 2, handing, "states 2 nodes 3\n0 11\n1 00\n2 00\n");
    test("0 to 0 each way", 2, vec![arrow(0, 1, 0, 0), arrow(1, 0, 0, 0)], "refused 19 at 0 1\n");
}

/// What can't be opened, or can't be read once it is, counts as empty.
fn unreadable(list: &mut List) {
    let sorts = [("missing", Stored::Missing), ("empty", Stored::Bytes(vec![])), ("a folder", Stored::Folder)];
    for (name, sort) in sorts {
        let whole = || files(short().bytes(), listed_rule());
        let no_chart = Files { chart: sort.clone(), ..whole() };
        add(list, &format!("chart {name}"), no_chart, "refused 1 at 0 1\n", calls(&[], &[]));
        let no_rule = Files { rule: sort.clone(), ..whole() };
        add(list, &format!("rule {name}"), no_rule, "refused 10 at 0 3\n", SHORT_CALLS.into());
        let no_ask = Files { ask: sort.clone(), ..whole() };
        add(list, &format!("ask {name}"), no_ask, LISTING, SHORT_CALLS.into());
        let nothing = Files { chart: sort.clone(), rule: sort.clone(), ask: sort };
        add(list, &format!("all {name}"), nothing, "refused 1 at 0 1\n", calls(&[], &[]));
    }
}

pub fn all() -> List {
    let mut list = Vec::new();
    papers(&mut list);
    timelocks(&mut list);
    unreadable(&mut list);
    limits_length::all(&mut list);
    limits_rows::all(&mut list);
    limits_why::all(&mut list);
    list
}

#[cfg(test)]
mod tests {
    use super::all;
    use crate::programs::files::Pair;

    #[test]
    fn no_name_and_no_files_twice() {
        let list = all();
        for (i, pair) in list.iter().enumerate() {
            let alike = |other: &Pair| other.files == pair.files && other.why == pair.why;
            let same = list[..i].iter().find(|other| other.name == pair.name || alike(other));
            assert!(same.is_none(), "{}", pair.name);
        }
    }

    #[test]
    fn the_oracle_prints_what_is_written() {
        for pair in all() {
            assert_eq!(Some(pair.files.texts()), pair.written, "{}", pair.name);
            if let Some(text) = &pair.why.written {
                assert_eq!(pair.why.judged(&pair.files, text), Ok(()), "{}", pair.name);
            }
        }
    }
}
