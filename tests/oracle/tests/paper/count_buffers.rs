//! What marks and scratch hold after a call of count.

use crate::make::{chart, rule, short, true_l2, A, AT_MOST, TRUE};
use oracle::count;

/// Number, marks and how many leading scratch numbers are 0; the others are as lent. Lent were 10 marks of 7.
fn after(chart: &[u8], rule: &[u8], scratch: usize) -> (u32, Vec<u8>, usize) {
    let (mut marks, mut scratch) = (vec![7; 10], vec![9; scratch]);
    let number = count(chart, rule, &mut marks, &mut scratch).number;
    let zeros = scratch.iter().take_while(|&&number| number == 0).count();
    assert!(scratch[zeros..].iter().all(|&number| number == 9));
    (number, marks, zeros)
}

#[test]
fn accepted() {
    let marks = vec![1, 1, 1, 0, 0, 1, 0, 1, 1, 7];
    assert_eq!(after(&short(), &true_l2(A, AT_MOST, 13), 769), (0, marks.clone(), 768));
    assert_eq!(after(&short(), &true_l2(A, AT_MOST, 13), 768), (0, marks, 768));
    assert_eq!(after(&short(), &rule(&[TRUE]), 800), (0, vec![1, 1, 1, 7, 7, 7, 7, 7, 7, 7], 768));
}

#[test]
fn refused_19_clears_scratch_and_keeps_marks() {
    let looped = chart(&[0, 0], &[[0, 1, 0, 0], [1, 0, 0, 0]]);
    assert_eq!(after(&looped, &rule(&[TRUE]), 520), (19, vec![7; 10], 512));
}

#[test]
fn other_refusals_keep_both() {
    for (chart, rule, number) in [
        (vec![], rule(&[TRUE]), 1),
        (chart(&[0; 2], &[[0, 0, 1, 1]]), rule(&[TRUE]), 9),
        (short(), vec![], 10),
        (short(), rule(&[TRUE, (2, 0, 1, 0, 0)]), 15),
        (short(), true_l2(A, AT_MOST, 256), 63),
        (chart(&[0; 4], &[0, 1, 2, 3].map(|s| [s, s, 1, 1])), true_l2(A, AT_MOST, 13), 17),
        (chart(&[0; 5], &[0, 1, 2, 3, 4].map(|s| [s, s, 1, 1])), rule(&[TRUE]), 18),
    ] {
        assert_eq!(after(&chart, &rule, 1_279), (number, vec![7; 10], 0));
    }
}
