//! What marks, scratch and output hold after a call of show.

use crate::make::{chart, short, true_l2, AT_MOST, E};
use crate::show_call::{call, Called};

const MARKS: [u8; 9] = [1, 1, 1, 0, 0, 1, 1, 1, 1];

/// How many leading scratch numbers are 0; the others are as lent.
fn cleared(called: &Called) -> usize {
    let zeros = called.scratch.iter().take_while(|&&number| number == 0).count();
    assert!(called.scratch[zeros..].iter().all(|&number| number == 9));
    zeros
}

/// Number, marks, scratch cleared and output.
fn after(called: Called) -> (u32, Vec<u8>, usize, Vec<u8>) {
    let zeros = cleared(&called);
    (called.answer.0, called.marks, zeros, called.output)
}

fn short_within_5(node: usize, scratch: usize, output: usize) -> Called {
    call(&short(), &true_l2(E, AT_MOST, 5), node, 0, [11, scratch, output])
}

fn marks() -> Vec<u8> {
    [MARKS.as_slice(), &[7, 7]].concat()
}

#[test]
fn shown() {
    let run = vec![0, 0, 0, 0, 0, 5, 0, 1, 0, 0, 0, 0, 0, 2, 0, 0, 0, 0, 5, 5];
    assert_eq!(after(short_within_5(2, 780, 20)), (0, marks(), 771, run));
}

#[test]
fn refused_60_and_61_as_check_leaves_them() {
    assert_eq!(after(short_within_5(1, 780, 20)), (60, marks(), 12, vec![5; 20]));
    assert_eq!(after(short_within_5(1, 20, 20)), (60, marks(), 12, vec![5; 20]));
    assert_eq!(after(short_within_5(2, 770, 20)), (61, marks(), 12, vec![5; 20]));
    assert_eq!(after(short_within_5(2, 12, 20)), (61, marks(), 12, vec![5; 20]));
}

#[test]
fn refused_62_clears_all() {
    assert_eq!(after(short_within_5(2, 780, 17)), (62, marks(), 771, vec![5; 17]));
    assert_eq!(after(short_within_5(2, 771, 0)), (62, marks(), 771, vec![]));
}

#[test]
fn refusals_of_check() {
    assert_eq!(after(short_within_5(2, 11, 20)), (18, vec![7; 11], 0, vec![5; 20]));
    let looped = chart(&[0; 3], &[[0, 1, 0, 0], [1, 0, 0, 0], [2, 2, 1, 1]]);
    let called = call(&looped, &true_l2(E, AT_MOST, 5), 2, 0, [11, 780, 20]);
    assert_eq!(after(called), (19, vec![7; 11], 12, vec![5; 20]));
}
