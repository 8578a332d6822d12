//! The largest that is accepted, and the buffers that are enough for it. `include/doilystrand.h` has the same numbers.

/// The most states of a chart.
pub const MAX_STATES: usize = 256;
/// The most arrows of a chart.
pub const MAX_ARROWS: usize = 2_048;
/// The most nodes of a rule.
pub const MAX_NODES: usize = 64;

/// Bytes of the longest chart.
pub const MAX_CHART: usize = 9 + 2 * MAX_STATES + 8 * MAX_ARROWS;
/// Bytes of the longest rule.
pub const MAX_RULE: usize = 7 + 8 * MAX_NODES;
/// Bytes of the longest map.
pub const MAX_MAP: usize = 7 + 2 * MAX_STATES;

/// Bytes of marks that are enough for every check.
pub const MAX_MARKS: usize = MAX_NODES * MAX_STATES;
/// Numbers of scratch that are enough for every check, with exact bounds too; four for each state are without.
pub const MAX_SCRATCH: usize = 256 * MAX_STATES;

/// A run of 256 steps, the most that one is shown with, has a position more.
const MAX_POSITIONS: usize = 257;
/// Bytes of the longest shown run.
pub const MAX_RUN: usize = 6 * MAX_POSITIONS;
/// Numbers of scratch that are enough for every shown run.
pub const MAX_RUN_SCRATCH: usize = MAX_POSITIONS * MAX_STATES;

/// The greatest bound that is counted to.
pub const MAX_COUNT_BOUND: usize = 255;
/// Numbers of scratch that are enough for every count: one for each minute left, at each state.
pub const MAX_COUNT_SCRATCH: usize = (MAX_COUNT_BOUND + 1) * MAX_STATES;

/// Bytes of the longest text that is read as a rule.
pub const MAX_TEXT: usize = 4_096;
/// Bytes of the longest text that a rule has: 31 untils, `E( U>=65535 )` without operands, 32 `true`, and a not.
pub const MAX_RULE_TEXT: usize = 31 * 13 + 32 * 4 + 1;

/// The most of an arrow whose slot has no end.
pub const NO_END: u32 = 65_535;

#[cfg(test)]
mod tests {
    use super::*;
    use crate::samples;
    use crate::{check, count, map_check, read_rule, show, write_rule};

    fn defined(line: &str) -> Option<(&str, usize)> {
        let (name, value) = line.strip_prefix("#define DOILYSTRAND_")?.split_once(' ')?;
        Some((name, value.parse().expect(line)))
    }

    #[test]
    fn the_header_has_the_same_numbers() {
        let header: Vec<_> = include_str!("../../include/doilystrand.h").lines().filter_map(defined).collect();
        let ours = [
            ("MAX_STATES", MAX_STATES),
            ("MAX_ARROWS", MAX_ARROWS),
            ("MAX_NODES", MAX_NODES),
            ("MAX_CHART", MAX_CHART),
            ("MAX_RULE", MAX_RULE),
            ("MAX_MAP", MAX_MAP),
            ("MAX_MARKS", MAX_MARKS),
            ("MAX_SCRATCH", MAX_SCRATCH),
            ("MAX_RUN", MAX_RUN),
            ("MAX_RUN_SCRATCH", MAX_RUN_SCRATCH),
            ("MAX_COUNT_BOUND", MAX_COUNT_BOUND),
            ("MAX_COUNT_SCRATCH", MAX_COUNT_SCRATCH),
            ("MAX_TEXT", MAX_TEXT),
            ("MAX_RULE_TEXT", MAX_RULE_TEXT),
            ("NO_END", NO_END as usize),
        ];
        assert_eq!(header, ours);
    }

    #[test]
    fn the_largest_is_accepted() {
        let (chart, rule, map) = (samples::largest_chart(), samples::largest_rule(), samples::largest_map());
        assert_eq!((chart.len(), rule.len(), map.len()), (MAX_CHART, MAX_RULE, MAX_MAP));
        assert!(check(&chart, &rule, &mut [0; MAX_MARKS], &mut [0; MAX_SCRATCH]).is_accepted());
        assert!(count(&chart, &rule, &mut [0; MAX_MARKS], &mut vec![0; MAX_COUNT_SCRATCH]).is_accepted());
        assert!(map_check(&chart, &chart, &map).is_accepted());
    }

    #[test]
    fn the_largest_takes_all_of_the_buffers() {
        let (chart, rule) = (samples::largest_chart(), samples::largest_exact_rule());
        let number = |m, s| check(&chart, &rule, &mut vec![0; m], &mut vec![0; s]).number;
        assert_eq!(number(MAX_MARKS - 1, MAX_SCRATCH), 17);
        assert_eq!(number(MAX_MARKS, MAX_SCRATCH - 1), 18);
        let number = |m, s| count(&chart, &rule, &mut vec![0; m], &mut vec![0; s]).number;
        assert_eq!(number(MAX_MARKS - 1, MAX_COUNT_SCRATCH), 17);
        assert_eq!(number(MAX_MARKS, MAX_COUNT_SCRATCH - 1), 18);
    }

    #[test]
    fn counts_go_to_the_greatest_bound() {
        let chart = samples::largest_chart();
        let outcome = |minutes| {
            let (mut marks, mut scratch) = (vec![0; MAX_MARKS], vec![0; MAX_COUNT_SCRATCH]);
            let outcome = count(&chart, &samples::some_run_of_at_least(minutes), &mut marks, &mut scratch);
            (outcome.number, outcome.place)
        };
        assert_eq!([outcome(MAX_COUNT_BOUND), outcome(MAX_COUNT_BOUND + 1)], [(0, 0), (63, 2)]);
    }

    #[test]
    fn the_longest_run_takes_all_of_the_buffers() {
        let (chart, rule) = (samples::largest_chart(), samples::some_run_of_at_least(256));
        let shown = |s, o| {
            let (mut marks, mut scratch, mut output) = (vec![0; MAX_MARKS], vec![0; s], vec![0; o]);
            show(&chart, &rule, &mut marks, &mut scratch, 2, 0, &mut output)
                .map_or_else(|refusal| refusal.outcome().number as usize, |run| run.bytes().len())
        };
        assert_eq!(shown(MAX_RUN_SCRATCH, MAX_RUN), MAX_RUN);
        assert_eq!(shown(MAX_RUN_SCRATCH - 1, MAX_RUN), 61);
        assert_eq!(shown(MAX_RUN_SCRATCH, MAX_RUN - 1), 62);
    }
    /// The number that a text with nothing lent is refused with: whether it is read at all.
    fn unread(text: &str) -> u32 {
        read_rule(text.as_bytes(), &mut []).expect_err("a refusal").outcome().number
    }

    #[test]
    fn texts_go_to_the_longest() {
        assert_eq!([unread(&"!".repeat(MAX_TEXT)), unread(&"!".repeat(MAX_TEXT + 1))], [64, 65]);
        let nots = |count: usize| "!".repeat(count) + "true";
        assert_eq!([unread(&nots(MAX_NODES - 1)), unread(&nots(MAX_NODES))], [66, 65]);
    }

    #[test]
    fn the_longest_text_of_a_rule_takes_all_of_the_output() {
        let (text, mut rule) = (samples::longest_text(), [0; MAX_RULE]);
        assert_eq!(text.len(), MAX_RULE_TEXT);
        assert_eq!(read_rule(text.as_bytes(), &mut rule).map(<[u8]>::len), Ok(MAX_RULE));
        assert_eq!(unread(&text), 66);
        assert_eq!(write_rule(&rule, &mut [0; MAX_RULE_TEXT]), Ok(text.as_str()));
        let refusal = write_rule(&rule, &mut [0; MAX_RULE_TEXT - 1]).expect_err("a refusal");
        assert_eq!(refusal.outcome().number, 66);
    }
}
