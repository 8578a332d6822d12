//! A plain peer of the library's check, by the published method: shortest times by Dijkstra's search backwards from the
//! goals, longest times over strongly connected components. It parses, refuses and marks as the library does. A run is
//! shown by a search over steps after that. Counting the minutes is a method of its own, over the same chart and rule,
//! written twice: quick and plain; check settles exact bounds by the quick one. Rules typed as text are read by recursive
//! descent, and written down their tree.

mod arrows;
mod chart;
mod components;
mod count;
mod counts;
mod exact_run;
mod layers;
mod longest;
mod minutes;
mod read_rule;
mod rounds;
mod rows;
mod rule;
mod settle;
mod shortest;
mod show;
mod slots;
mod waiting;
mod write_rule;

use chart::Chart;
use count::ROWS;
use rule::Rule;
use settle::Settler;

pub use count::{count, plain_count};
pub use read_rule::read_rule;
pub use show::{show, Written};
pub use write_rule::write_rule;

/// Number and place of a refusal, and which paper was wrong: 1 the chart, 3 the rule, 5 a buffer. All 0 on success.
#[derive(Clone, Copy, Debug, PartialEq, Eq)]
pub struct Outcome {
    pub number: u32,
    pub place: u32,
    pub entry: u32,
}

impl Outcome {
    pub const ACCEPTED: Outcome = Outcome { number: 0, place: 0, entry: 0 };
}

fn refusal(number: u32, place: usize) -> Outcome {
    let entry = match number {
        1..=9 | 19 => 1,
        17 | 18 | 61 | 62 | 66 => 5,
        _ => 3,
    };
    Outcome { number, place: place as u32, entry }
}

fn word(bytes: &[u8], at: usize) -> u16 {
    u16::from_be_bytes([bytes[at], bytes[at + 1]])
}

/// The length that bytes 1 to 4 state.
fn stated_length(bytes: &[u8]) -> usize {
    u32::from_be_bytes([bytes[1], bytes[2], bytes[3], bytes[4]]) as usize
}

/// Marks every node of the rule at every state of the chart.
pub fn check(chart: &[u8], rule: &[u8], marks: &mut [u8], scratch: &mut [u32]) -> Outcome {
    match accept(chart, rule, marks, scratch) {
        Ok(_) => Outcome::ACCEPTED,
        Err(refused) => refused,
    }
}

/// Refusals 1 to 16. One function for check and count, so that neither changes the code that the other is compiled to.
fn read(chart: &[u8], rule: &[u8]) -> Result<(Chart, Rule), Outcome> {
    Ok((Chart::read(chart)?, Rule::read(rule)?))
}

fn accept(chart: &[u8], rule: &[u8], marks: &mut [u8], scratch: &mut [u32]) -> Result<(Chart, Rule), Outcome> {
    let (chart, rule) = read(chart, rule)?;
    let n = chart.labels.len();
    let marks = marks.get_mut(..rule.nodes.len() * n).ok_or(refusal(17, 0))?;
    let scratch = scratch.get_mut(..if rule.is_exact() { ROWS } else { 4 } * n).ok_or(refusal(18, 0))?;
    // But for the rows of exact bounds, the numbers per state live in vectors here; the lent ones are only left as the
    // paper says.
    let locked = chart.refuse_timelock();
    if locked.is_ok() {
        Settler::new(&chart, &rule, scratch).settle(&rule, marks);
    }
    scratch.fill(0);
    locked.map(|()| (chart, rule))
}
