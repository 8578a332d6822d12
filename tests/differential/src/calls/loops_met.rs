//! Which loops the accepted charts had that can be taken in no time, call by call.

use oracle::{has_leavable_loop_of_0_to_0, has_loop_of_fewest_0};

use crate::cases::case::{Case, CALLS, CHECK, COUNT, MAP, SHOW};

const LOOPS: [&str; 2] = ["a loop of arrows whose fewest are all 0", "a loop of 0 to 0 arrows that can be left"];

/// Places in `CALLS` of those that are handed charts and judge them whole.
const JUDGING: [usize; 4] = [CHECK, COUNT, SHOW, MAP];

/// By loop and call the accepted charts that had it.
pub struct LoopsMet([[u64; CALLS.len()]; LOOPS.len()]);

impl LoopsMet {
    pub fn new() -> LoopsMet {
        LoopsMet([[0; CALLS.len()]; LOOPS.len()])
    }

    pub fn add(&mut self, accepted: &Case) {
        for chart in accepted.charts() {
            let has = [has_loop_of_fewest_0(chart), has_leavable_loop_of_0_to_0(chart)];
            for (counts, has) in self.0.iter_mut().zip(has) {
                counts[accepted.call()] += u64::from(has);
            }
        }
    }

    /// What no accepted chart of a call had.
    pub fn missing(&self) -> Vec<String> {
        let calls = |counts: &[u64; CALLS.len()]| JUDGING.into_iter().filter(|&call| counts[call] == 0).collect();
        let missing = |(name, calls): (&str, Vec<usize>)| {
            calls.into_iter().map(|call| format!("accepted chart of a {} with {name}", CALLS[call])).collect::<Vec<_>>()
        };
        LOOPS.into_iter().zip(self.0.iter().map(calls)).flat_map(missing).collect()
    }

    pub fn text(&self) -> String {
        let line = |(name, counts): (&str, &[u64; CALLS.len()])| {
            let by_call = JUDGING.map(|call| format!("{} {}", CALLS[call], counts[call])).join(", ");
            format!("{:>12}  {name} ({by_call})\n", counts.iter().sum::<u64>())
        };
        LOOPS.into_iter().zip(&self.0).map(line).collect()
    }
}

#[cfg(test)]
mod tests {
    use super::LoopsMet;
    use crate::bytes::chart::{arrow, Arrow, Chart};
    use crate::named::expected::{exact, just_true};

    /// What a check of one chart doesn't leave missing.
    fn met(n: usize, arrows: &[Arrow]) -> (bool, bool) {
        let mut loops = LoopsMet::new();
        loops.add(&exact(&Chart { labels: vec![0; n], arrows: arrows.to_vec() }, &just_true()));
        let missing = loops.missing();
        let has = |what: &str| !missing.contains(&format!("accepted chart of a check with {what}"));
        (has("a loop of arrows whose fewest are all 0"), has("a loop of 0 to 0 arrows that can be left"))
    }

    #[test]
    fn each_loop_counts_as_what_it_is() {
        assert_eq!(met(1, &[arrow(0, 0, 1, 1)]), (false, false));
        assert_eq!(met(1, &[arrow(0, 0, 0, 3)]), (true, false));
        assert_eq!(met(2, &[arrow(0, 1, 0, 3), arrow(1, 0, 0, 3)]), (true, false));
        assert_eq!(met(2, &[arrow(0, 1, 0, 3), arrow(1, 0, 1, 3)]), (false, false));
        assert_eq!(met(1, &[arrow(0, 0, 0, 0), arrow(0, 0, 1, 1)]), (true, true));
        assert_eq!(met(2, &[arrow(0, 0, 0, 0), arrow(0, 1, 1, 1), arrow(1, 1, 2, 2)]), (true, true));
    }

    #[test]
    fn every_call_has_to_meet_both() {
        assert_eq!(LoopsMet::new().missing().len(), 8);
    }
}
