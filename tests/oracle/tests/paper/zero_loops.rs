//! Which loops in no time a chart has.

use crate::make::{chart, ArrowFields};
use oracle::{has_leavable_loop_of_0_to_0, has_loop_of_fewest_0};

/// Whether there is a loop of fewest 0, and whether there is one of 0 to 0 that can be left.
fn zero_loops(n: usize, arrows: &[ArrowFields]) -> (bool, bool) {
    let chart = chart(&vec![0; n], arrows);
    (has_loop_of_fewest_0(&chart), has_leavable_loop_of_0_to_0(&chart))
}

#[test]
fn which_loops_in_no_time() {
    assert_eq!(zero_loops(1, &[[0, 0, 1, 1]]), (false, false));
    assert_eq!(zero_loops(1, &[[0, 0, 0, 3]]), (true, false));
    assert_eq!(zero_loops(1, &[[0, 0, 0, 0]]), (true, false));
    assert_eq!(zero_loops(1, &[[0, 0, 0, 0], [0, 0, 7, 7]]), (true, true));
    assert_eq!(zero_loops(2, &[[0, 1, 0, 0], [1, 0, 0, 0]]), (true, false));
    assert_eq!(zero_loops(2, &[[0, 1, 0, 0], [1, 0, 0, 3]]), (true, false));
    assert_eq!(zero_loops(2, &[[0, 1, 0, 0], [1, 0, 1, 3]]), (false, false));
    assert_eq!(zero_loops(2, &[[0, 0, 0, 0], [0, 1, 0, 0], [1, 1, 0, 1]]), (true, true));
    assert_eq!(zero_loops(2, &[[0, 0, 1, 1], [0, 1, 0, 0], [1, 1, 0, 0]]), (true, false));
    assert_eq!(zero_loops(3, &[[0, 1, 0, 0], [1, 0, 0, 0], [1, 2, 1, 1], [2, 2, 1, 1]]), (true, true));
    assert_eq!(zero_loops(2, &[[0, 0, 0, 0]]), (false, false), "row 9");
    assert_eq!(zero_loops(1, &[[0, 0, 0, 0], [0, 7, 1, 1]]), (false, false), "row 7");
    assert!(!has_loop_of_fewest_0(&[]) && !has_leavable_loop_of_0_to_0(&[255; 99]));
}
