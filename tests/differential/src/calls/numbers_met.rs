//! Which numbers each call answered with, and with which entry: every pair of the two has to be met.

use std::collections::BTreeMap;
use std::ops::RangeInclusive;

use crate::calls::outcome::Outcome;
use crate::cases::case::{CALLS, CHECK, COUNT, KIND, MAP, READ, SHOW, WRITE};

/// The calls that answer a number.
pub const NUMBERED: [usize; 7] = [CHECK, COUNT, KIND, MAP, SHOW, READ, WRITE];

/// Numbers that carry one entry.
type Row = (RangeInclusive<u32>, u32);

const OF_CHECK: [Row; 4] = [(1..=9, 1), (10..=16, 3), (17..=18, 5), (19..=19, 1)];

/// What a call refuses with; a chart's numbers carry 2 where the chart is the overview.
fn refusals(call: usize) -> Vec<Row> {
    match call {
        CHECK => OF_CHECK.to_vec(),
        COUNT => [&OF_CHECK[..], &[(63..=63, 3)]].concat(),
        SHOW => [&OF_CHECK[..], &[(60..=60, 3), (61..=62, 5)]].concat(),
        KIND => vec![(10..=16, 3)],
        MAP => vec![(1..=9, 1), (19..=19, 1), (1..=9, 2), (19..=19, 2), (20..=22, 4), (23..=23, 1)],
        READ => vec![(64..=65, 3), (66..=66, 5)],
        WRITE => vec![(10..=16, 3), (66..=66, 5)],
        _ => Vec::new(),
    }
}

/// Number and entry.
type Pair = (u32, u32);

/// How often one call answered with one pair.
#[derive(Clone, Copy, Default)]
struct Count {
    /// Whether the call can answer so at all.
    possible: bool,
    named: u64,
    random: u64,
}

impl Count {
    fn all(self) -> u64 {
        self.named + self.random
    }
}

#[derive(Default)]
struct Counts {
    calls: [Count; CALLS.len()],
    highest_place: u32,
}

pub struct NumbersMet(BTreeMap<Pair, Counts>);

impl NumbersMet {
    pub fn new() -> NumbersMet {
        let mut pairs: BTreeMap<Pair, Counts> = BTreeMap::new();
        for call in NUMBERED {
            let rows = refusals(call).into_iter().chain([(0..=0, 0)]);
            for pair in rows.flat_map(|(numbers, entry)| numbers.map(move |number| (number, entry))) {
                pairs.entry(pair).or_default().calls[call].possible = true;
            }
        }
        NumbersMet(pairs)
    }

    pub fn add(&mut self, call: usize, outcome: Outcome, random: bool) {
        let counts = self.0.entry((outcome.number, outcome.entry)).or_default();
        counts.highest_place = counts.highest_place.max(outcome.place);
        let count = &mut counts.calls[call];
        *(if random { &mut count.random } else { &mut count.named }) += 1;
    }

    /// What each pair was met with as its highest place; what was never met is left out.
    pub fn met(&self) -> Vec<Outcome> {
        let met = |counts: &Counts| counts.calls.iter().any(|count| count.all() > 0);
        let outcome =
            |(&(number, entry), counts): (&Pair, &Counts)| Outcome { number, place: counts.highest_place, entry };
        self.0.iter().filter(|(_, counts)| met(counts)).map(outcome).collect()
    }

    /// The pairs of calls that are so, by name.
    fn only(&self, is: impl Fn(usize, Count) -> bool) -> Vec<String> {
        let calls = |counts: &Counts| NUMBERED.into_iter().filter(|&call| is(call, counts.calls[call])).collect();
        let names = |((number, entry), calls): (&Pair, Vec<usize>)| {
            let name = |call| format!("number {number} with entry {entry} of {}", CALLS[call]);
            calls.into_iter().map(name).collect::<Vec<_>>()
        };
        self.0.iter().map(|(pair, counts)| (pair, calls(counts))).flat_map(names).collect()
    }

    /// What was never met; a call that is strict has to meet each pair in random cases.
    pub fn missing(&self, is_strict: impl Fn(usize) -> bool) -> Vec<String> {
        self.only(|call, count| count.possible && (count.all() == 0 || is_strict(call) && count.random == 0))
    }

    /// What was met though the call never answers so.
    pub fn strange(&self) -> Vec<String> {
        self.only(|_, count| !count.possible && count.all() > 0)
    }

    /// How often a call answered, in random cases.
    pub fn random(&self, call: usize) -> u64 {
        self.0.values().map(|counts| counts.calls[call].random).sum()
    }

    pub fn accepted(&self, call: usize) -> u64 {
        self.0.get(&(0, 0)).map_or(0, |counts| counts.calls[call].all())
    }

    pub fn text(&self) -> String {
        let heads = NUMBERED.map(|call| format!("{:>14}", CALLS[call])).join("");
        let mut text = format!("number  entry  {heads}  named + random\n");
        for ((number, entry), counts) in &self.0 {
            let cell = |count: Count| match count.possible || count.all() > 0 {
                true => format!("{} + {}", count.named, count.random),
                false => "-".into(),
            };
            let cells = NUMBERED.map(|call| format!("{:>14}", cell(counts.calls[call]))).join("");
            text += &format!("{number:>6}  {entry:>5}  {cells}\n");
        }
        text
    }
}

#[cfg(test)]
mod tests {
    use super::NumbersMet;
    use crate::calls::outcome::Outcome;
    use crate::cases::case::{CHECK, MAP};

    fn has(list: Vec<String>, what: &str) -> bool {
        list.iter().any(|name| name == what)
    }

    #[test]
    fn detail_and_overview_are_met_apart() {
        let mut met = NumbersMet::new();
        let names = [1, 2].map(|entry| format!("number 9 with entry {entry} of map"));
        assert!(names.iter().all(|name| has(met.missing(|_| false), name)));
        met.add(MAP, Outcome { number: 9, place: 3, entry: 2 }, false);
        assert!(has(met.missing(|_| false), &names[0]) && !has(met.missing(|_| false), &names[1]));
        assert!(has(met.missing(|call| call == MAP), &names[1]) && met.strange().is_empty());
        assert_eq!(met.met(), [Outcome { number: 9, place: 3, entry: 2 }]);
    }

    #[test]
    fn another_entry_or_number_is_strange() {
        let mut met = NumbersMet::new();
        met.add(CHECK, Outcome { number: 9, place: 0, entry: 2 }, true);
        met.add(MAP, Outcome { number: 99, place: 0, entry: 0 }, true);
        assert_eq!(met.strange(), ["number 9 with entry 2 of check", "number 99 with entry 0 of map"]);
        assert!(has(met.missing(|_| true), "number 9 with entry 1 of check"));
    }
}
