//! Count, over lent buffers.

use crate::marking::COUNT;
use crate::Outcome;

/// Marks as [`check`](crate::check) does, by another way: it counts the minutes left one by one, 0 to the bound.
///
/// Bounds go to [`MAX_COUNT_BOUND`](crate::MAX_COUNT_BOUND); a greater one is refused with 63 and its node, before the
/// buffers are looked at. It wants k × n bytes of marks and 256n numbers of scratch, for a rule without bounds too;
/// [`MAX_MARKS`](crate::MAX_MARKS) and [`MAX_COUNT_SCRATCH`](crate::MAX_COUNT_SCRATCH) are always enough. The first 256n
/// numbers of scratch are 0 after acceptance and after refusal 19. All else is left as lent.
///
/// ```
/// let chart = [1, 0, 0, 0, 19, 0, 1, 0, 1, 0, 0, 0, 0, 0, 0, 0, 3, 0, 3]; // one state, an arrow of 3 to 3 minutes
/// // E(true until true, at least 5)
/// let mut rule = [1, 0, 0, 0, 31, 0, 3, 0, 0, 0, 0, 0, 0, 0, 0, 0, 0, 0, 0, 0, 0, 0, 0, 5, 2, 0, 0, 0, 1, 0, 5];
/// let (mut marks, mut scratch) = ([0; 3], [0; 256]);
/// let outcome = doilystrand::count(&chart, &rule, &mut marks, &mut scratch);
/// assert!(outcome.is_accepted(), "{outcome}");
/// assert_eq!(marks, [1, 1, 1]);
///
/// rule[29] = 1; // at least 261
/// let refusal = doilystrand::count(&chart, &rule, &mut marks, &mut scratch).into_result().unwrap_err();
/// assert_eq!(refusal.to_string(), "refused 63 at 2 3: a bound above 255 (rule, node 2)");
/// ```
#[must_use = "the marks are written only on acceptance"]
pub fn count(chart: &[u8], rule: &[u8], marks: &mut [u8], scratch: &mut [u32]) -> Outcome {
    COUNT.call(chart, rule, marks, scratch).of_call(&[1..=19, 63..=63])
}

#[cfg(test)]
mod tests {
    use super::*;
    use crate::check;
    use crate::samples::{some_run_of_at_least, SHORT, WITHIN_13};

    /// What Short and a rule of three nodes are counted with: buffers that are one longer than it wants.
    struct Lent {
        marks: [u8; 10],
        scratch: [u32; 769],
    }

    impl Lent {
        fn new() -> Lent {
            Lent { marks: [77; 10], scratch: [7; 769] }
        }

        /// Number and place, given so many marks and numbers of scratch.
        fn count(&mut self, rule: &[u8], marks: usize, scratch: usize) -> (u32, u32) {
            let outcome = count(SHORT, rule, &mut self.marks[..marks], &mut self.scratch[..scratch]);
            (outcome.number, outcome.place)
        }

        fn as_lent(&self) -> bool {
            self.marks == [77; 10] && self.scratch == [7; 769]
        }
    }

    #[test]
    fn marks_are_written() {
        let mut lent = Lent::new();
        assert_eq!(lent.count(WITHIN_13, 10, 769), (0, 0));
        assert_eq!(lent.marks, [1, 1, 1, 0, 0, 1, 0, 1, 1, 77]);
        assert_eq!((&lent.scratch[..768], lent.scratch[768]), (&[0; 768][..], 7));
        let mut marks = [77; 10];
        assert!(check(SHORT, WITHIN_13, &mut marks, &mut [0; 12]).is_accepted());
        assert_eq!(marks, lent.marks);
    }

    #[test]
    fn refusals_are_given() {
        for (minutes, marks, scratch, outcome) in [
            (255, 9, 768, (0, 0)),
            (256, 9, 768, (63, 2)),
            (65_535, 0, 0, (63, 2)),
            (255, 8, 0, (17, 0)),
            (255, 9, 767, (18, 0)),
            (255, 9, 12, (18, 0)),
        ] {
            let (mut lent, rule) = (Lent::new(), some_run_of_at_least(minutes));
            assert_eq!(lent.count(&rule, marks, scratch), outcome, "{minutes} {marks} {scratch}");
            assert_eq!(lent.as_lent(), outcome.0 != 0, "{minutes} {marks} {scratch}");
        }
        assert_eq!(Lent::new().count(&[], 10, 769), (10, 0));
        assert_eq!(count(&[], &[], &mut [], &mut []).number, 1);
    }

    #[test]
    fn refusal_19_clears_scratch() {
        let chart = [1, 0, 0, 0, 19, 0, 1, 0, 1, 0, 0, 0, 0, 0, 0, 0, 0, 0, 0]; // an arrow of 0 to 0 minutes
        let (mut marks, mut scratch) = ([77; 3], [7; 257]);
        assert_eq!(count(&chart, WITHIN_13, &mut marks, &mut scratch).number, 19);
        assert_eq!((marks, &scratch[..256], scratch[256]), ([77; 3], &[0; 256][..], 7));
    }
}
