//! A chart's bytes: refusals 1 to 9 and 19, labels, and the arrows by start and by end.

use super::arrows::{Arrow, ArrowLists};
use super::components::Components;
use super::{refusal, stated_length, word, Outcome};

pub struct Chart {
    pub labels: Vec<u16>,
    /// Arrows by their start; the other end is where they lead.
    pub out: ArrowLists,
    /// Arrows by their end; the other end is where they come from.
    pub into: ArrowLists,
}

impl Chart {
    pub fn read(bytes: &[u8]) -> Result<Chart, Outcome> {
        let n = states(bytes)?;
        let (labels, arrows) = bytes[9..].split_at(2 * n);
        refuse_arrows(n, arrows)?;
        let out = ArrowLists::group(n, arrows.chunks_exact(8).map(|a| (word(a, 0), seen(a, 2))));
        if let Some(lonely) = (0..n).find(|&s| out.of(s).is_empty()) {
            return Err(refusal(9, lonely));
        }
        let into = ArrowLists::group(n, arrows.chunks_exact(8).map(|a| (word(a, 2), seen(a, 0))));
        let labels = labels.chunks_exact(2).map(|label| word(label, 0)).collect();
        Ok(Chart { labels, out, into })
    }

    /// Refusal 19: a state from which no loop holding an arrow with most above 0 can be reached.
    pub fn refuse_timelock(&self) -> Result<(), Outcome> {
        let n = self.labels.len();
        let mut goes_on = vec![false; n];
        Components::new(n).each(
            &self.out,
            |_| true,
            |_| true,
            |component| {
                // All that it leads to was closed before.
                let leads_on = |&s: &u16| self.out.of(usize::from(s)).iter().any(|a| goes_on[usize::from(a.other)]);
                if component.passes(&self.out) || component.members.iter().any(leads_on) {
                    component.members.iter().for_each(|&s| goes_on[usize::from(s)] = true);
                }
            },
        );
        goes_on.iter().position(|&goes_on| !goes_on).map_or(Ok(()), |s| Err(refusal(19, s)))
    }
}

/// The state count of a chart whose head and length are right: refusals 1 to 6.
fn states(bytes: &[u8]) -> Result<usize, Outcome> {
    if bytes.len() < 9 {
        return Err(refusal(1, 0));
    }
    if bytes[0] != 1 {
        return Err(refusal(2, 0));
    }
    if stated_length(bytes) != bytes.len() {
        return Err(refusal(3, 0));
    }
    let (n, m) = (usize::from(word(bytes, 5)), usize::from(word(bytes, 7)));
    if !(1..=256).contains(&n) {
        return Err(refusal(4, 0));
    }
    if !(1..=2048).contains(&m) {
        return Err(refusal(5, 0));
    }
    if bytes.len() != 9 + 2 * n + 8 * m {
        return Err(refusal(6, 0));
    }
    Ok(n)
}

/// Refusals 7 and 8; 7 is looked for in every arrow before 8.
fn refuse_arrows(n: usize, arrows: &[u8]) -> Result<(), Outcome> {
    let foreign = |a: &[u8]| usize::from(word(a, 0)) >= n || usize::from(word(a, 2)) >= n;
    let empty = |a: &[u8]| word(a, 4) > word(a, 6) || word(a, 4) == u16::MAX;
    if let Some(arrow) = arrows.chunks_exact(8).position(foreign) {
        return Err(refusal(7, arrow));
    }
    match arrows.chunks_exact(8).position(empty) {
        Some(arrow) => Err(refusal(8, arrow)),
        None => Ok(()),
    }
}

/// The arrows of an accepted chart in the order of the list, each with its start.
pub fn listed(n: usize, bytes: &[u8]) -> impl Iterator<Item = (u16, Arrow)> + '_ {
    bytes[9 + 2 * n..].chunks_exact(8).map(|a| (word(a, 0), seen(a, 2)))
}

/// The arrow with its other end read at `at`.
fn seen(bytes: &[u8], at: usize) -> Arrow {
    Arrow { other: word(bytes, at), fewest: word(bytes, 4), most: word(bytes, 6) }
}
