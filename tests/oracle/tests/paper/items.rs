//! The thirteen items and the listing.

use crate::last_marks::last_marks;
use crate::make::{chart, label, not, one, short, undo, NodeFields, A, AT_LEAST, AT_MOST, E, TRUE};
use oracle::listing;

/// True until L2.
fn true_l2(operation: u8, kind: u8, c: u16) -> Vec<NodeFields> {
    vec![TRUE, label(2), (operation, kind, 0, 1, c)]
}

/// Not L2 until L2.
fn not_l2_l2(operation: u8, kind: u8, c: u16) -> Vec<NodeFields> {
    vec![label(2), not(0), label(2), (operation, kind, 1, 2, c)]
}

#[test]
fn items_1_to_5() {
    assert_eq!(last_marks(&short(), &true_l2(E, AT_MOST, 5)), "111");
    assert_eq!(last_marks(&short(), &true_l2(E, AT_MOST, 4)), "011");
    assert_eq!(last_marks(&short(), &true_l2(A, AT_MOST, 14)), "111");
    assert_eq!(last_marks(&short(), &true_l2(A, AT_MOST, 13)), "011");
    assert_eq!(last_marks(&undo(), &true_l2(A, AT_MOST, 14)), "001");
}

#[test]
fn items_6_to_10() {
    assert_eq!(last_marks(&short(), &not_l2_l2(E, AT_LEAST, 14)), "100");
    assert_eq!(last_marks(&short(), &not_l2_l2(E, AT_LEAST, 15)), "000");
    assert_eq!(last_marks(&undo(), &not_l2_l2(E, AT_LEAST, 15)), "110");
    assert_eq!(last_marks(&short(), &not_l2_l2(A, AT_LEAST, 5)), "100");
    assert_eq!(last_marks(&short(), &not_l2_l2(A, AT_LEAST, 6)), "000");
}

#[test]
fn items_11_to_13() {
    let label_0 = [TRUE, label(0), (E, AT_LEAST, 0, 1, 0)];
    let not_label_0 = [TRUE, label(0), not(1), (E, AT_MOST, 0, 2, 0)];
    let true_true = [TRUE, TRUE, (E, AT_LEAST, 0, 1, 65_535)];
    assert_eq!(last_marks(&one(), &label_0), "0");
    assert_eq!(last_marks(&one(), &not_label_0), "1");
    assert_eq!(last_marks(&one(), &true_true), "1");
}

fn from_hex(text: &str) -> Vec<u8> {
    let digits: Vec<u8> = text.chars().filter_map(|digit| digit.to_digit(16)).map(|digit| digit as u8).collect();
    digits.chunks(2).map(|pair| pair[0] * 16 + pair[1]).collect()
}

#[test]
fn the_listing() {
    let chart =
        from_hex("01 00000027 0003 0003 0001 0002 0004 0000 0001 0005 000A 0001 0002 0000 0004 0002 0000 0014 FFFF");
    let rule = from_hex("01 0000001F 0003 0000000000000000 0100000200000000 060100000001000D");
    assert_eq!(chart, short());
    assert_eq!(listing(&chart, &rule), "states 3 nodes 3\n0 111\n1 001\n2 011\n");
}

#[test]
fn refusals_are_one_line() {
    assert_eq!(listing(&[], &[]), "refused 1 at 0 1\n");
    assert_eq!(listing(&short(), &[]), "refused 10 at 0 3\n");
    assert_eq!(listing(&chart(&[0, 0], &[[0, 0, 1, 1]]), &[]), "refused 9 at 1 1\n");
    assert_eq!(listing(&chart(&[0, 0, 0], &[[0, 1, 1, 1], [1, 0, 1, 1]]), &[]), "refused 9 at 2 1\n");
}
