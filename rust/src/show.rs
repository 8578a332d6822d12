//! Show, over lent buffers.

use crate::written::front;
use crate::{call, Refusal, Run};

/// Does as [`check`](crate::check) does, then shows a run that is the reason why an E-until node holds at the state, or
/// why an A-until node bounded by "at most" doesn't.
///
/// The run stands in the first bytes of the output. It has the fewest steps there are, at most 256; which of several
/// appears is free. It wants 257n numbers of scratch, and 6 bytes of output for each position;
/// [`MAX_RUN_SCRATCH`](crate::MAX_RUN_SCRATCH) and [`MAX_RUN`](crate::MAX_RUN) are always enough. The first 257n numbers
/// of scratch are 0 after acceptance and after refusal 62, as many as check's after 19, 60 and 61. The marks are written
/// after 60 to 62 too. All else is left as lent. [`why`](crate::why()) does the same with buffers of its own.
///
/// # Errors
///
/// The refusal: one of check's, or 60 to 62.
///
/// ```
/// use doilystrand::{show, Position};
///
/// let chart = [1, 0, 0, 0, 19, 0, 1, 0, 1, 0, 0, 0, 0, 0, 0, 0, 3, 0, 3]; // one state, an arrow of 3 to 3 minutes
/// // E(true until true, at least 5)
/// let rule = [1, 0, 0, 0, 31, 0, 3, 0, 0, 0, 0, 0, 0, 0, 0, 0, 0, 0, 0, 0, 0, 0, 0, 5, 2, 0, 0, 0, 1, 0, 5];
/// let (mut marks, mut scratch, mut output) = ([0; 3], [0; 257], [0; 18]);
/// let run = show(&chart, &rule, &mut marks, &mut scratch, 2, 0, &mut output)?;
/// assert_eq!(run.steps(), 2);
/// assert!(run.positions().eq([3, 3, 0].map(|duration| Position { state: 0, duration })));
///
/// let refusal = show(&chart, &rule, &mut marks, &mut scratch, 2, 0, &mut output[..17]).unwrap_err();
/// assert_eq!(refusal.to_string(), "refused 62 at 0 5: no true run of at most 256 steps fits the output (a buffer)");
/// # Ok::<(), doilystrand::Refusal>(())
/// ```
pub fn show<'a>(
    chart: &[u8],
    rule: &[u8],
    marks: &mut [u8],
    scratch: &mut [u32],
    node: usize,
    state: usize,
    output: &'a mut [u8],
) -> Result<Run<'a>, Refusal> {
    // SAFETY: each pointer comes with the length of its own slice, and the three that are written to overlap no other.
    let coded = unsafe {
        call::doilystrand_show(
            chart.as_ptr(),
            chart.len(),
            rule.as_ptr(),
            rule.len(),
            marks.as_mut_ptr(),
            marks.len(),
            scratch.as_mut_ptr(),
            scratch.len(),
            node,
            state,
            output.as_mut_ptr(),
            output.len(),
        )
    };
    front(coded, &[1..=19, 60..=62], output).map(Run::of)
}

#[cfg(test)]
mod tests {
    use super::*;
    use crate::samples::{SHORT, SOME_WITHIN_5, WITHIN_13};

    /// What Short and a rule of three nodes are shown with: buffers that are one longer than it wants.
    struct Lent {
        marks: [u8; 10],
        scratch: [u32; 772],
        output: [u8; 19],
    }

    impl Lent {
        fn new() -> Lent {
            Lent { marks: [77; 10], scratch: [7; 772], output: [99; 19] }
        }

        /// The bytes of the run, or the refusal's number; scratch and output of these sizes.
        fn show(&mut self, rule: &[u8], node: usize, scratch: usize, output: usize) -> Result<Vec<u8>, u32> {
            let (scratch, output) = (&mut self.scratch[..scratch], &mut self.output[..output]);
            match show(SHORT, rule, &mut self.marks, scratch, node, 0, output) {
                Ok(run) => Ok(run.bytes().to_vec()),
                Err(refusal) => Err(refusal.outcome().number),
            }
        }

        /// The first numbers of scratch are 0, the others as lent, and so is the output past the run.
        fn left(&self, cleared: usize, written: usize) -> bool {
            let (zeros, kept) = self.scratch.split_at(cleared);
            zeros.iter().all(|&x| x == 0)
                && kept.iter().all(|&x| x == 7)
                && self.output[written..] == [99; 19][written..]
        }
    }

    #[test]
    fn runs_are_shown() {
        let run = [0, 0, 0, 0, 0, 5, 0, 1, 0, 0, 0, 0, 0, 2, 0, 0, 0, 0];
        let mut lent = Lent::new();
        assert_eq!(lent.show(SOME_WITHIN_5, 2, 772, 19), Ok(run.to_vec()));
        assert_eq!((lent.marks, lent.left(771, 18)), ([1, 1, 1, 0, 0, 1, 1, 1, 1, 77], true));
        let run = [0, 0, 0, 0, 0, 10, 0, 1, 0, 0, 0, 4, 0, 2, 0, 0, 0, 0];
        assert_eq!(Lent::new().show(WITHIN_13, 2, 771, 18), Ok(run.to_vec()));
    }

    #[test]
    fn refusals_are_given() {
        let written = [1, 1, 1, 0, 0, 1, 1, 1, 1, 77];
        for (node, scratch, output, number, cleared) in [
            (1, 772, 19, 60, 12),
            (3, 772, 19, 60, 12),
            (usize::MAX, 772, 19, 60, 12),
            (2, 770, 19, 61, 12),
            (2, 12, 19, 61, 12),
            (2, 771, 17, 62, 771),
            (2, 772, 0, 62, 771),
        ] {
            let mut lent = Lent::new();
            assert_eq!(lent.show(SOME_WITHIN_5, node, scratch, output), Err(number));
            assert_eq!((lent.marks, lent.left(cleared, 0)), (written, true), "{number}");
        }
        let mut lent = Lent::new();
        assert_eq!(lent.show(SOME_WITHIN_5, 2, 11, 19), Err(18));
        assert_eq!((lent.marks, lent.left(0, 0)), ([77; 10], true));
    }
}
