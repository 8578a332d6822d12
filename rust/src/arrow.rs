//! The chart reader's arrows.

use crate::call::{self, CodedArrow};

/// One arrow as a chart's bytes give it; a most of [`NO_END`](crate::NO_END) is no end.
#[derive(Clone, Copy, Debug, PartialEq, Eq)]
pub struct ArrowWords {
    pub start: usize,
    pub end: usize,
    pub fewest: u32,
    pub most: u32,
}

/// What a chart reader of these bytes at this number hands out: that arrow of a chart that passes checks 1 to 9; none
/// where it is finished.
///
/// ```
/// use doilystrand::{arrow, ArrowWords, NO_END};
///
/// let chart = [1, 0, 0, 0, 19, 0, 1, 0, 1, 0, 0, 0, 0, 0, 0, 0, 20, 255, 255]; // an arrow of 20 minutes to no end
/// assert_eq!(arrow(&chart, 0), Some(ArrowWords { start: 0, end: 0, fewest: 20, most: NO_END }));
/// assert_eq!(arrow(&chart, 1), None);
/// ```
#[must_use = "it only answers"]
pub fn arrow(chart: &[u8], number: usize) -> Option<ArrowWords> {
    // SAFETY: the pointer comes with the length of its slice, which is only read.
    let coded = unsafe { call::doilystrand_arrow(chart.as_ptr(), chart.len(), number) };
    words_of(coded)
}

fn words_of(coded: CodedArrow) -> Option<ArrowWords> {
    let CodedArrow { found, start, end, fewest, most } = coded;
    match found {
        0 => None,
        1 => Some(ArrowWords { start, end, fewest, most }),
        _ => panic!("the library answers found {found}, which is neither 0 nor 1"),
    }
}

#[cfg(test)]
mod tests {
    use super::*;
    use crate::samples::SHORT;
    use crate::NO_END;

    #[test]
    fn arrows_are_handed_out() {
        assert_eq!(arrow(SHORT, 0), Some(ArrowWords { start: 0, end: 1, fewest: 5, most: 10 }));
        assert_eq!(arrow(SHORT, 2), Some(ArrowWords { start: 2, end: 0, fewest: 20, most: NO_END }));
        assert_eq!([arrow(SHORT, 3), arrow(SHORT, usize::MAX), arrow(&SHORT[..38], 0), arrow(&[], 0)], [None; 4]);
    }

    #[test]
    fn words_are_not_cut() {
        let coded = CodedArrow { found: 1, start: usize::MAX, end: 65_536, fewest: 65_536, most: u32::MAX };
        let words = ArrowWords { start: usize::MAX, end: 65_536, fewest: 65_536, most: u32::MAX };
        assert_eq!(words_of(coded), Some(words));
    }

    #[test]
    #[should_panic = "the library answers found 2, which is neither 0 nor 1"]
    fn unknown_found_panics() {
        words_of(CodedArrow { found: 2, start: 0, end: 0, fewest: 0, most: 0 });
    }
}
