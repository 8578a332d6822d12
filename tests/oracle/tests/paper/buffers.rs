//! What marks and scratch hold after a call.

use crate::make::{chart, rule, short, TRUE};
use oracle::check;

fn buffers_after(chart: &[u8], rule: &[u8], expected: u32) -> (Vec<u8>, Vec<u32>) {
    let (mut marks, mut scratch) = (vec![7; 12], vec![9; 14]);
    assert_eq!(check(chart, rule, &mut marks, &mut scratch).number, expected);
    (marks, scratch)
}

#[test]
fn accepted() {
    let (marks, scratch) = buffers_after(&short(), &rule(&[TRUE, (2, 0, 0, 0, 0)]), 0);
    assert_eq!(marks, [1, 1, 1, 0, 0, 0, 7, 7, 7, 7, 7, 7]);
    assert_eq!(scratch, [0, 0, 0, 0, 0, 0, 0, 0, 0, 0, 0, 0, 9, 9]);
}

#[test]
fn refused_19_clears_scratch_and_keeps_marks() {
    let looped = chart(&[0, 0], &[[0, 1, 0, 0], [1, 0, 0, 0]]);
    let (marks, scratch) = buffers_after(&looped, &rule(&[TRUE]), 19);
    assert_eq!(marks, [7; 12]);
    assert_eq!(scratch, [0, 0, 0, 0, 0, 0, 0, 0, 9, 9, 9, 9, 9, 9]);
}

#[test]
fn other_refusals_keep_both() {
    for (chart, rule, number) in [
        (vec![], rule(&[TRUE]), 1),
        (short(), vec![], 10),
        (chart(&[0; 13], &[[0, 0, 1, 1]; 13]), rule(&[TRUE]), 9),
        (short(), rule(&[TRUE, (2, 0, 1, 0, 0)]), 15),
    ] {
        let (marks, scratch) = buffers_after(&chart, &rule, number);
        assert_eq!((marks, scratch), (vec![7; 12], vec![9; 14]));
    }
}
