//! What the counts met: every until under every sort of bound, arrows of no time in a row, slots about the bound, buffers
//! about the shortest that are enough, and 63 beside the rows before and after it.

use crate::bytes::chart::{Arrow, NO_END};
use crate::bytes::rule::{self, plain, A, AT_LEAST, AT_MOST, E, EXACTLY, TRUE};
use crate::calls::compare::Answer;
use crate::cases::case::Case;

/// The untils in the order of the tables below.
const FORMS: [(u8, u8); 6] = [(E, AT_MOST), (E, AT_LEAST), (A, AT_MOST), (A, AT_LEAST), (E, EXACTLY), (A, EXACTLY)];

macro_rules! under_bounds {
    ($until:literal) => {
        [
            [concat!($until, " 0, unmarked"), concat!($until, " 0, marked")],
            [concat!($until, " 1 to 254, unmarked"), concat!($until, " 1 to 254, marked")],
            [concat!($until, " 255, unmarked"), concat!($until, " 255, marked")],
        ]
    };
}

/// At states where the first operand alone holds: elsewhere the arrows don't count.
const BOUNDS: [[[&str; 2]; 3]; 6] = [
    under_bounds!("E at most"),
    under_bounds!("E at least"),
    under_bounds!("A at most"),
    under_bounds!("A at least"),
    under_bounds!("E exactly"),
    under_bounds!("A exactly"),
];

macro_rules! in_a_row {
    ($until:literal) => {
        [
            concat!($until, ", 3 arrows of no time listed along the run"),
            concat!($until, ", 3 arrows of no time listed against the run"),
        ]
    };
}

const ROWS: [[&str; 2]; 6] = [
    in_a_row!("E at most"),
    in_a_row!("E at least"),
    in_a_row!("A at most"),
    in_a_row!("A at least"),
    in_a_row!("E exactly"),
    in_a_row!("A exactly"),
];

const OTHERS: [&str; 24] = [
    "c a minute below the fewest",
    "c the fewest",
    "c the most",
    "c a minute above the most",
    "slot without end",
    "no until",
    "256 states",
    "marks of k × n bytes",
    "marks to spare",
    "marks of k × n − 1 bytes",
    "scratch of 256n numbers",
    "scratch to spare",
    "scratch of 256n − 1 numbers",
    "scratch of 4n numbers",
    "scratch short, no until",
    "19, scratch to spare",
    "bound 256 refused",
    "bound above 256 refused",
    "refused bound of an inner node",
    "refused bound, a higher node's too",
    "16 before 63",
    "63 before 17",
    "63 before 18",
    "63 before 19",
];

/// All that is to be met.
pub fn all() -> impl Iterator<Item = &'static str> {
    BOUNDS.into_iter().flatten().flatten().chain(ROWS.into_iter().flatten()).chain(OTHERS)
}

fn word(bytes: &[u8]) -> u16 {
    u16::from_be_bytes([bytes[0], bytes[1]])
}

/// What was counted: n and k, and the nodes, each with its operation, kind, a, b and c.
struct Counted<'a> {
    chart: &'a [u8],
    n: usize,
    nodes: Vec<(u8, u8, usize, usize, u16)>,
}

impl<'a> Counted<'a> {
    fn of(chart: &'a [u8], rule: &[u8]) -> Option<Counted<'a>> {
        let n = usize::from(word(chart.get(5..7)?));
        let node = |x: &[u8]| (x[0], x[1], usize::from(word(&x[2..])), usize::from(word(&x[4..])), word(&x[6..]));
        Some(Counted { chart, n, nodes: rule.get(7..)?.chunks_exact(8).map(node).collect() })
    }

    /// None where one leads to or from no state: a wrong acceptance.
    fn arrows(&self) -> Option<Vec<Arrow>> {
        let words = self.chart.get(9 + 2 * self.n..)?.chunks_exact(8);
        let arrow = |x: &[u8]| Arrow { start: word(x), end: word(&x[2..]), fewest: word(&x[4..]), most: word(&x[6..]) };
        let known = |arrow: Arrow| (usize::from(arrow.start.max(arrow.end)) < self.n).then_some(arrow);
        words.map(|x| known(arrow(x))).collect()
    }

    fn without_until(&self) -> bool {
        self.nodes.iter().all(|node| !FORMS.contains(&(node.0, node.1)))
    }

    /// The nodes whose bound is above 255.
    fn above(&self) -> impl Iterator<Item = usize> + '_ {
        (0..self.nodes.len()).filter(|&t| self.nodes[t].4 > 255)
    }

    fn marks_wanted(&self) -> usize {
        self.nodes.len() * self.n
    }

    fn scratch_wanted(&self) -> usize {
        256 * self.n
    }

    /// Of a count with 63.
    fn refused(&self, marks: usize, scratch: usize) -> Vec<&'static str> {
        let Some(node) = self.above().next() else {
            return Vec::new();
        };
        let least = self.nodes[node].4 == 256;
        let met = [
            (least, "bound 256 refused"),
            (!least, "bound above 256 refused"),
            (node + 1 < self.nodes.len(), "refused bound of an inner node"),
            (self.above().count() > 1, "refused bound, a higher node's too"),
            (marks < self.marks_wanted(), "63 before 17"),
            (scratch < self.scratch_wanted(), "63 before 18"),
            (self.meets_19(), "63 before 19"),
        ];
        met.into_iter().filter(|(is, _)| *is).map(|(_, kind)| kind).collect()
    }

    fn meets_19(&self) -> bool {
        let rule = rule::bytes(&[plain(TRUE, 0, 0)]);
        oracle::check(self.chart, &rule, &mut vec![0; self.n], &mut vec![0; 4 * self.n]).number == 19
    }

    /// Of an accepted count, with the marks it wrote.
    fn accepted(&self, marks: usize, scratch: usize, written: &[u8]) -> Vec<&'static str> {
        let met = [
            (marks == self.marks_wanted(), "marks of k × n bytes"),
            (marks > self.marks_wanted(), "marks to spare"),
            (scratch == self.scratch_wanted(), "scratch of 256n numbers"),
            (scratch > self.scratch_wanted(), "scratch to spare"),
            (self.n == 256, "256 states"),
            (self.without_until(), "no until"),
        ];
        let mut met: Vec<_> = met.into_iter().filter(|(is, _)| *is).map(|(_, kind)| kind).collect();
        let arrows = self.arrows().unwrap_or_default();
        let only = only_arrows(self.n, &arrows);
        let row = |t: usize| written.get(t * self.n..(t + 1) * self.n);
        for (t, &(operation, kind, a, b, c)) in self.nodes.iter().enumerate() {
            let form = FORMS.iter().position(|form| *form == (operation, kind));
            if let (Some(form), Some(first), Some(second), Some(own)) = (form, row(a), row(b), row(t)) {
                Until { arrows: &arrows, only: &only, form, c, first, second, own }.met(&mut met);
            }
        }
        met
    }
}

/// Each state's arrow, where it has but one: every run goes that way.
fn only_arrows(n: usize, arrows: &[Arrow]) -> Vec<Option<usize>> {
    let mut leaving = vec![Vec::new(); n];
    for (i, arrow) in arrows.iter().enumerate() {
        leaving[arrow.start as usize].push(i);
    }
    leaving.iter().map(|numbers| (numbers.len() == 1).then(|| numbers[0])).collect()
}

/// An until of an accepted count, with its row and those of its operands.
struct Until<'a> {
    arrows: &'a [Arrow],
    only: &'a [Option<usize>],
    form: usize,
    c: u16,
    first: &'a [u8],
    second: &'a [u8],
    own: &'a [u8],
}

impl Until<'_> {
    /// The first operand alone holds.
    fn open(&self, state: usize) -> bool {
        self.first[state] == 1 && self.second[state] == 0
    }

    fn met(&self, met: &mut Vec<&'static str>) {
        let sort = match self.c {
            0 => 0,
            1..=254 => 1,
            _ => 2,
        };
        for state in (0..self.own.len()).filter(|&state| self.open(state)) {
            met.push(BOUNDS[self.form][sort][usize::from(self.own[state] == 1)]);
            if let Some(i) = self.only[state] {
                met.extend(self.about(&self.arrows[i]));
            }
            met.extend(self.in_a_row(state).filter(|_| self.own[state] == 1));
        }
    }

    /// How the bound stands to the slot of an arrow that leads to the second operand.
    fn about(&self, arrow: &Arrow) -> Option<&'static str> {
        let (c, fewest, most) = (u32::from(self.c), u32::from(arrow.fewest), u32::from(arrow.most));
        match () {
            _ if self.second[arrow.end as usize] == 0 => None,
            _ if c == fewest => Some("c the fewest"),
            _ if c + 1 == fewest => Some("c a minute below the fewest"),
            _ if arrow.most == NO_END => Some("slot without end"),
            _ if c == most => Some("c the most"),
            _ if c == most + 1 => Some("c a minute above the most"),
            _ => None,
        }
    }

    /// The state's arrow, if it leads on within the minute: by the fewest or by the most, as the until asks.
    fn instant(&self, state: usize) -> Option<usize> {
        let i = self.only[state].filter(|_| self.open(state))?;
        let quickest = matches!(FORMS[self.form], (E, AT_MOST | EXACTLY) | (A, AT_LEAST));
        let minutes = if quickest { self.arrows[i].fewest } else { self.arrows[i].most };
        (minutes == 0).then_some(i)
    }

    /// Three such arrows in a row. With "at least 0" any arrow would do.
    fn in_a_row(&self, state: usize) -> Option<&'static str> {
        if self.c == 0 && FORMS[self.form].1 == AT_LEAST {
            return None;
        }
        let first = self.instant(state)?;
        let second = self.instant(self.arrows[first].end as usize)?;
        let third = self.instant(self.arrows[second].end as usize)?;
        let [along, against] = ROWS[self.form];
        match (first < second && second < third, first > second && second > third) {
            (true, _) => Some(along),
            (_, true) => Some(against),
            _ => None,
        }
    }
}

/// Those that a count met.
pub fn kinds(case: &Case, answer: &Answer) -> Vec<&'static str> {
    let (Case::Count { chart, rule, marks, scratch }, Answer::Count { outcome, marks: written, .. }) = (case, answer)
    else {
        return Vec::new();
    };
    let Some(counted) = Counted::of(chart, rule) else {
        return Vec::new();
    };
    let (marks, scratch) = (marks.length, scratch.length);
    let one = |is: bool, kind| if is { vec![kind] } else { Vec::new() };
    match outcome.number {
        0 => counted.accepted(marks, scratch, &written[..counted.marks_wanted().min(marks)]),
        16 => one(counted.above().next().is_some(), "16 before 63"),
        17 => one(marks + 1 == counted.marks_wanted(), "marks of k × n − 1 bytes"),
        18 => [
            one(scratch + 1 == counted.scratch_wanted(), "scratch of 256n − 1 numbers"),
            one(scratch == 4 * counted.n, "scratch of 4n numbers"),
            one(counted.without_until(), "scratch short, no until"),
        ]
        .concat(),
        19 => one(scratch > counted.scratch_wanted(), "19, scratch to spare"),
        63 => counted.refused(marks, scratch),
        _ => Vec::new(),
    }
}

#[cfg(test)]
mod tests {
    use super::{all, kinds};
    use crate::calls::compare::oracle;
    use crate::calls::met::Met;
    use crate::named::{counts, minutes};
    use crate::random::generate;

    /// Of a named case, by its name.
    fn met(name: &str) -> Vec<&'static str> {
        let mut list = Vec::new();
        counts::all(&mut list);
        minutes::all(&mut list);
        let case = &list.iter().find(|test| test.name == name).expect(name).case;
        kinds(case, &oracle::run(case))
    }

    #[test]
    fn each_count_counts_for_its_kinds() {
        let exact = ["marks of k × n bytes", "scratch of 256n numbers"];
        assert_eq!(met("true alone, 768 numbers"), [&exact[..], &["no until"]].concat());
        assert_eq!(met("true alone, 767 numbers"), ["scratch of 256n − 1 numbers", "scratch short, no until"]);
        assert_eq!(met("row 18: 12 numbers"), ["scratch of 4n numbers"]);
        assert_eq!(met("row 63: E at most 256"), ["bound 256 refused"]);
        let lowest = ["bound 256 refused", "refused bound of an inner node", "refused bound, a higher node's too"];
        assert_eq!(met("row 63: nodes 2 and 4"), lowest);
        assert_eq!(met("63 goes before 17 and 18"), ["bound 256 refused", "63 before 17", "63 before 18"]);
        assert_eq!(met("16 goes before 63"), ["16 before 63"]);
    }

    #[test]
    fn arrows_count_where_the_first_operand_alone_holds() {
        let about = met("4 to 7, A at most 7");
        assert_eq!(about[2..], ["A at most 1 to 254, marked", "c the most"]);
        let row = "E at most, 3 arrows of no time listed along the run";
        assert!(met("no time, along the list, E at most 0").contains(&row));
        assert!(!met("no time, against the list, E at most 0").contains(&row));
        assert!(!met("no time, along the list, E at least 0").iter().any(|kind| kind.contains("no time")));
    }

    #[test]
    fn a_kind_is_missing_until_it_is_met() {
        let mut every = Met::of(all());
        assert!(every.missing().eq(all()));
        for number in 0..4_000 {
            let case = generate::random(1, number);
            let kinds = kinds(&case, &oracle::run(&case));
            every.add(&kinds);
            assert!(kinds.iter().all(|kind| all().any(|known| known == *kind)), "{kinds:?}");
            assert!(every.missing().all(|kind| !kinds.contains(&kind)));
        }
        assert!(every.missing().count() < all().count() / 2);
    }
}
