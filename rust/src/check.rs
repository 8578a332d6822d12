//! Check, over lent buffers.

use crate::marking::CHECK;
use crate::Outcome;

/// Marks every node of the rule at every state of the chart: byte t × n + s is 1 if node t holds at state s, else 0.
///
/// It wants k × n bytes of marks and 4n numbers of scratch, or 256n if a bound of the rule is exact (kind 3);
/// [`MAX_MARKS`](crate::MAX_MARKS) and [`MAX_SCRATCH`](crate::MAX_SCRATCH) are always enough. The first so many numbers
/// of scratch are 0 after acceptance and after refusal 19. All else is left as lent. [`marks`](crate::marks()) does the
/// same with buffers of its own.
///
/// ```
/// let chart = [1, 0, 0, 0, 19, 0, 1, 0, 1, 0, 0, 0, 0, 0, 0, 0, 1, 0, 1]; // one state, an arrow of 1 to 1 minutes
/// let rule = [1, 0, 0, 0, 15, 0, 1, 0, 0, 0, 0, 0, 0, 0, 0]; // true
/// let (mut marks, mut scratch) = ([0; 1], [0; 4]);
/// let outcome = doilystrand::check(&chart, &rule, &mut marks, &mut scratch);
/// assert!(outcome.is_accepted(), "{outcome}");
/// assert_eq!(marks, [1]);
/// ```
#[must_use = "the marks are written only on acceptance"]
pub fn check(chart: &[u8], rule: &[u8], marks: &mut [u8], scratch: &mut [u32]) -> Outcome {
    CHECK.call(chart, rule, marks, scratch).of_call(&[1..=19])
}
