//! Show, with buffers of its own.

use crate::{show, Position, Refusal, MAX_MARKS, MAX_RUN, MAX_RUN_SCRATCH};

/// Shows a run that is the reason why an E-until node holds at the state, or why an A-until node bounded by "at most"
/// doesn't.
///
/// # Errors
///
/// The refusal: 1 to 16, 19, 60, or 62 where every run has more than 256 steps. The buffers are large enough for every
/// chart, rule and run, so 17, 18 and 61 don't occur.
///
/// ```
/// let chart = [1, 0, 0, 0, 19, 0, 1, 0, 1, 0, 0, 0, 0, 0, 0, 0, 3, 0, 3]; // one state, an arrow of 3 to 3 minutes
/// // E(true until true, at least 5)
/// let rule = [1, 0, 0, 0, 31, 0, 3, 0, 0, 0, 0, 0, 0, 0, 0, 0, 0, 0, 0, 0, 0, 0, 0, 5, 2, 0, 0, 0, 1, 0, 5];
/// let durations: Vec<u32> = doilystrand::why(&chart, &rule, 2, 0)?.iter().map(|position| position.duration).collect();
/// assert_eq!(durations, [3, 3, 0]);
/// # Ok::<(), doilystrand::Refusal>(())
/// ```
pub fn why(chart: &[u8], rule: &[u8], node: usize, state: usize) -> Result<Vec<Position>, Refusal> {
    let (mut marks, mut scratch, mut output) = (vec![0; MAX_MARKS], vec![0; MAX_RUN_SCRATCH], vec![0; MAX_RUN]);
    let run = show(chart, rule, &mut marks, &mut scratch, node, state, &mut output)?;
    Ok(run.positions().collect())
}

#[cfg(test)]
mod tests {
    use super::*;
    use crate::samples::{largest_chart, some_run_of_at_least, SHORT, WITHIN_13};

    #[test]
    fn reasons_are_shown() {
        let positions = [(0, 10), (1, 4), (2, 0)].map(|(state, duration)| Position { state, duration });
        assert_eq!(why(SHORT, WITHIN_13, 2, 0), Ok(positions.to_vec()));
    }

    #[test]
    fn refusals_are_given() {
        let number = |chart, rule, node, state| why(chart, rule, node, state).expect_err("a refusal").outcome().number;
        assert_eq!(number(&[], WITHIN_13, 2, 0), 1);
        assert_eq!(number(SHORT, &[], 2, 0), 10);
        assert_eq!(number(SHORT, WITHIN_13, 2, 1), 60);
        assert_eq!(number(SHORT, WITHIN_13, 2, 3), 60);
    }

    #[test]
    fn the_longest_fits() {
        let shown = |minutes| why(&largest_chart(), &some_run_of_at_least(minutes), 2, 0);
        assert_eq!(shown(256).map(|positions| positions.len()), Ok(257));
        assert_eq!(shown(257).map_err(|refusal| refusal.outcome().number), Err(62));
    }
}
