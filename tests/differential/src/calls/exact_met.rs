//! What the checks of rules with an exact bound met: both untils under every sort of c, where the bound stands in the
//! rule, scratch about the shortest that is enough, and c above 255.

use crate::bytes::rule::{self, Node, E, EXACTLY, MOST_EXACT};
use crate::calls::compare::Answer;
use crate::calls::rule_met::only;
use crate::cases::case::Case;

macro_rules! under_bounds {
    ($until:literal) => {
        [
            [concat!($until, " 0, unmarked"), concat!($until, " 0, marked")],
            [concat!($until, " 1 to 254, unmarked"), concat!($until, " 1 to 254, marked")],
            [concat!($until, " 255, unmarked"), concat!($until, " 255, marked")],
        ]
    };
}

/// At states where the first operand alone holds: elsewhere the arrows don't count.
const BOUNDS: [[[&str; 2]; 3]; 2] = [under_bounds!("E exactly"), under_bounds!("A exactly")];

const OTHERS: [&str; 13] = [
    "last node exact, alone",
    "exact below a last node that is not",
    "exact beside other bounds",
    "exact in exact",
    "scratch of 256n numbers",
    "scratch to spare",
    "scratch of 256n − 1 numbers",
    "scratch of 4n numbers",
    "19",
    "19, scratch to spare",
    "exactly 256 refused",
    "exactly above 256 refused",
    "17 before 18",
];

/// All that is to be met.
pub fn all() -> impl Iterator<Item = &'static str> {
    BOUNDS.into_iter().flatten().flatten().chain(OTHERS)
}

fn is_exact(node: &Node) -> bool {
    node.kind == EXACTLY
}

/// Where exact bounds stand in an accepted rule.
fn places(nodes: &[Node]) -> Vec<&'static str> {
    let exact_count = nodes.iter().filter(|node| is_exact(node)).count();
    let others = nodes.iter().any(|node| node.kind != 0 && !is_exact(node));
    let last = nodes.last().is_some_and(is_exact);
    let operand = |t: u16| nodes.get(usize::from(t)).is_some_and(is_exact);
    let nested = nodes.iter().any(|node| is_exact(node) && (operand(node.a) || operand(node.b)));
    only(&[
        (last && exact_count == 1, "last node exact, alone"),
        (!last, "exact below a last node that is not"),
        (others, "exact beside other bounds"),
        (nested, "exact in exact"),
    ])
}

/// The sorts of c that the exact untils have, marked and unmarked.
fn marks<'a>(nodes: &'a [Node], written: &'a [u8], n: usize) -> impl Iterator<Item = &'static str> + 'a {
    let row = move |t: usize| written.get(t * n..(t + 1) * n);
    let rows = move |(t, node): (usize, &Node)| Some((*node, row(node.a.into())?, row(node.b.into())?, row(t)?));
    let exact = nodes.iter().enumerate().filter(|(_, node)| is_exact(node));
    exact.filter_map(rows).flat_map(|(node, first, second, own)| {
        let sort = if node.c == 0 { 0 } else { 1 + usize::from(node.c == MOST_EXACT) };
        let names = BOUNDS[usize::from(node.operation != E)][sort];
        let open = (0..own.len()).filter(|&state| first[state] == 1 && second[state] == 0);
        open.map(move |state| names[usize::from(own[state] == 1)])
    })
}

fn refused_form(node: Option<&Node>) -> Vec<&'static str> {
    let c = node.filter(|node| is_exact(node)).map_or(0, |node| node.c);
    only(&[(c == 256, "exactly 256 refused"), (c > 256, "exactly above 256 refused")])
}

/// Those that a check met; none where no bound is exact.
pub fn kinds(case: &Case, answer: &Answer) -> Vec<&'static str> {
    let (Case::Check { chart, rule, marks: lent, scratch }, Answer::Check { outcome, marks: written, .. }) =
        (case, answer)
    else {
        return Vec::new();
    };
    let nodes = rule::nodes(rule);
    if !nodes.iter().any(is_exact) {
        return Vec::new();
    }
    let n = chart.get(5..7).map_or(0, |two| usize::from(u16::from_be_bytes([two[0], two[1]])));
    let (scratch, wanted) = (scratch.length, 256 * n);
    match outcome.number {
        0 => {
            let written = &written[..(nodes.len() * n).min(lent.length)];
            let room = [(scratch == wanted, "scratch of 256n numbers"), (scratch > wanted, "scratch to spare")];
            [places(&nodes), only(&room), marks(&nodes, written, n).collect()].concat()
        }
        14 => refused_form(nodes.get(outcome.place as usize)),
        17 => only(&[(scratch < wanted, "17 before 18")]),
        18 => {
            only(&[(scratch + 1 == wanted, "scratch of 256n − 1 numbers"), (scratch == 4 * n, "scratch of 4n numbers")])
        }
        19 => only(&[(true, "19"), (scratch > wanted, "19, scratch to spare")]),
        _ => Vec::new(),
    }
}

#[cfg(test)]
mod tests {
    use super::{all, kinds};
    use crate::bytes::rule::{self, node, plain, Node, A, E, LABEL, NOT, TRUE};
    use crate::calls::compare::oracle;
    use crate::calls::met::Met;
    use crate::named::expected::{check, short};
    use crate::random::generate;

    fn met(nodes: &[Node], scratch: usize) -> Vec<&'static str> {
        let case = check(short().bytes(), rule::bytes(nodes), 3 * nodes.len(), scratch);
        kinds(&case, &oracle::run(&case))
    }

    #[test]
    fn each_check_counts_for_its_kinds() {
        let exact = |operation, c| vec![plain(TRUE, 0, 0), plain(LABEL, 2, 0), node(operation, 3, 0, 1, c)];
        let alone = ["last node exact, alone", "scratch of 256n numbers"];
        let some = ["E exactly 1 to 254, marked", "E exactly 1 to 254, unmarked"];
        assert_eq!(met(&exact(E, 5), 768), [&alone[..], &some].concat());
        let none = ["A exactly 255, unmarked"; 2];
        assert_eq!(met(&exact(A, 255), 769), [&["last node exact, alone", "scratch to spare"][..], &none].concat());
        let deep = [exact(E, 0), vec![plain(NOT, 2, 0)]].concat();
        assert_eq!(met(&deep, 800)[0], "exact below a last node that is not");
        assert_eq!(met(&deep, 767), ["scratch of 256n − 1 numbers"]);
        assert_eq!(met(&deep, 12), ["scratch of 4n numbers"]);
        assert_eq!(met(&exact(E, 256), 0), ["exactly 256 refused"]);
        assert_eq!(met(&exact(A, 999), 0), ["exactly above 256 refused"]);
        let other = [plain(TRUE, 0, 0), plain(LABEL, 2, 0), node(E, 1, 0, 1, 5)];
        assert_eq!(met(&other, 12), [""; 0]);
    }

    #[test]
    fn a_kind_is_missing_until_it_is_met() {
        let mut every = Met::of(all());
        assert!(every.missing().eq(all()));
        for number in 0..4_000 {
            let case = generate::random(1, number);
            let kinds = kinds(&case, &oracle::run(&case));
            every.add(&kinds);
            assert!(kinds.iter().all(|kind| all().any(|known| known == *kind)), "{kinds:?}");
            assert!(every.missing().all(|kind| !kinds.contains(&kind)));
        }
        assert!(every.missing().count() < all().count() / 2, "{}", every.text());
    }
}
