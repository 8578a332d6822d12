//! Chart reader.

use crate::make::{chart, short, ArrowFields, NO_END};
use oracle::{arrow, map_check, Reader};

/// Start, end, fewest, most; None is finished.
fn fields(chart: &[u8], number: usize) -> Option<ArrowFields> {
    arrow(chart, number).map(|words| [words.start, words.end, words.fewest, words.most])
}

#[test]
fn in_order_then_finished() {
    assert_eq!(fields(&short(), 0), Some([0, 1, 5, 10]));
    assert_eq!(fields(&short(), 1), Some([1, 2, 0, 4]));
    assert_eq!(fields(&short(), 2), Some([2, 0, 20, NO_END]));
    for number in [3, 4, usize::MAX / 8, usize::MAX / 8 + 1, usize::MAX - 1, usize::MAX] {
        assert_eq!(fields(&short(), number), None, "{number}");
    }
}

/// One reader, from a number on.
#[test]
fn the_number_moves_until_finished() {
    let chart = short();
    let mut reader = Reader::new(&chart, 1);
    for number in [1, 2] {
        assert_eq!((reader.number(), reader.peek()), (number, arrow(&chart, number)));
        assert_eq!((reader.number(), reader.next()), (number, arrow(&chart, number)));
    }
    for _ in 0..2 {
        assert_eq!((reader.number(), reader.peek(), reader.next()), (3, None, None));
    }
    let mut beyond = Reader::new(&chart, usize::MAX);
    assert_eq!((beyond.next(), beyond.number()), (None, usize::MAX));
}

#[test]
fn over_other_bytes_the_number_stays() {
    let mut reader = Reader::new(&[1, 0, 0], 1);
    assert_eq!((reader.peek(), reader.next(), reader.number()), (None, None, 1));
}

/// One chart for each of the numbers 1 to 9.
#[test]
fn other_bytes_are_finished_at_once() {
    let mut version_2 = short();
    version_2[0] = 2;
    let mut one_too_long = chart(&[0], &[[0, 0, 1, 1]]);
    one_too_long.push(0);
    one_too_long[4] = 20;
    let refused = [
        vec![],
        version_2,
        [short(), vec![0]].concat(),
        chart(&[], &[[0, 0, 1, 1]]),
        chart(&[0], &vec![[0, 0, 1, 1]; 2049]),
        one_too_long,
        chart(&[0], &[[0, 0, 1, 1], [0, 1, 1, 1]]),
        chart(&[0], &[[0, 0, 1, 1], [0, 0, 5, 4]]),
        chart(&[0, 0], &[[0, 0, 1, 1]]),
    ];
    for (number, bytes) in (1..).zip(refused) {
        assert_eq!(map_check(&bytes, &[], &[]).number, number);
        assert_eq!(fields(&bytes, 0), None, "{number}");
        assert_eq!(fields(&bytes, usize::MAX), None, "{number}");
    }
}

/// Check 19 isn't asked for.
#[test]
fn a_loop_of_0_to_0_is_read() {
    let looped = chart(&[0, 0], &[[1, 1, 0, 0], [0, 1, 7, 7]]);
    assert_eq!(map_check(&looped, &[], &[]).number, 19);
    assert_eq!(fields(&looped, 0), Some([1, 1, 0, 0]));
    assert_eq!(fields(&looped, 1), Some([0, 1, 7, 7]));
    assert_eq!(fields(&looped, 2), None);
}

#[test]
fn the_most_arrows() {
    let arrows: Vec<ArrowFields> = (0..2048).map(|i| [i % 256, 255 - i % 256, i + 1, i + 2]).collect();
    let full = chart(&[0; 256], &arrows);
    for (number, given) in arrows.iter().enumerate() {
        assert_eq!(fields(&full, number), Some(*given));
    }
    assert_eq!(fields(&full, 2048), None);
}
