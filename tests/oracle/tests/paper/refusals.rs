//! The small input of rows 1 to 19, and the order of the tests.

use crate::make::{chart, label, not, one, rule, short, TRUE};
use crate::told::{told, Told};
use oracle::{check, count, kind_of_rule, Kind};

fn with_room(chart: &[u8], rule: &[u8], marks: usize, scratch: usize) -> Told {
    told(check(chart, rule, &mut vec![7; marks], &mut vec![9; scratch]))
}

/// Count must refuse as check does, with room for both.
fn of_both(chart: &[u8], rule: &[u8]) -> Told {
    let counted = count(chart, rule, &mut vec![7; 64 * 256], &mut vec![9; 256 * 256]);
    let refused = with_room(chart, rule, 64 * 256, 4 * 256);
    assert_eq!(told(counted), refused);
    refused
}

fn of_chart(chart: &[u8]) -> Told {
    of_both(chart, &rule(&[TRUE]))
}

/// Kind of rule must refuse a rule as check does.
fn of_rule(rule: &[u8]) -> Told {
    let refused = of_both(&short(), rule);
    let answer = kind_of_rule(rule);
    assert_eq!(told(answer.outcome), refused);
    assert_eq!(answer.kind, Kind::Neither);
    refused
}

/// One byte of the chart or rule replaced.
fn altered(mut bytes: Vec<u8>, at: usize, byte: u8) -> Vec<u8> {
    bytes[at] = byte;
    bytes
}

#[test]
fn rows_1_to_6() {
    assert_eq!(of_chart(&[]), (1, 0, 1));
    assert_eq!(of_chart(&altered(short(), 0, 2)), (2, 0, 1));
    assert_eq!(of_chart(&[short(), vec![0]].concat()), (3, 0, 1));
    assert_eq!(of_chart(&altered(short(), 6, 0)), (4, 0, 1));
    assert_eq!(of_chart(&chart(&[0], &vec![[0, 0, 1, 1]; 2049])), (5, 0, 1));
    assert_eq!(of_chart(&altered([one(), vec![0]].concat(), 4, 20)), (6, 0, 1));
}

#[test]
fn rows_7_to_9() {
    let end_3 = chart(&[1, 2, 4], &[[0, 1, 5, 10], [1, 3, 0, 4], [2, 0, 20, 65_535]]);
    let slot_5_to_4 = chart(&[1, 2, 4], &[[0, 1, 5, 10], [1, 2, 0, 4], [2, 0, 5, 4]]);
    let fewest_65535 = chart(&[0], &[[0, 0, 1, 1], [0, 0, 65_535, 65_535]]);
    assert_eq!(of_chart(&end_3), (7, 1, 1));
    assert_eq!(of_chart(&slot_5_to_4), (8, 2, 1));
    assert_eq!(of_chart(&fewest_65535), (8, 1, 1));
    assert_eq!(of_chart(&chart(&[0, 0], &[[0, 0, 1, 1]])), (9, 1, 1));
}

#[test]
fn rows_10_to_13() {
    let three = rule(&[TRUE, TRUE, (3, 0, 0, 1, 0)]);
    assert_eq!(of_rule(&[]), (10, 0, 3));
    assert_eq!(of_rule(&altered(three.clone(), 0, 0)), (11, 0, 3));
    assert_eq!(of_rule(&three[..30]), (12, 0, 3));
    assert_eq!(of_rule(&rule(&vec![TRUE; 65])), (13, 0, 3));
    assert_eq!(of_rule(&rule(&[])), (13, 0, 3));
    assert_eq!(of_rule(&altered(three, 6, 2)), (13, 0, 3));
}

#[test]
fn row_14() {
    let unknown = (7, 0, 0, 0, 0);
    let wrong_kinds = [(0, 1, 0, 0, 0), (1, 2, 0, 0, 0), (4, 3, 0, 0, 0), (5, 0, 0, 0, 0), (6, 4, 0, 0, 0)];
    let exactly = [(5, 3, 0, 0, 256), (6, 3, 0, 0, 257), (6, 3, 0, 0, 65_535)];
    let unused = [(0, 0, 1, 0, 0), (1, 0, 0, 1, 0), (2, 0, 0, 1, 0), (2, 0, 0, 0, 1), (3, 0, 0, 0, 1)];
    for node in [[unknown, label(16)].as_slice(), &wrong_kinds, &exactly, &unused].concat() {
        assert_eq!(of_rule(&rule(&[node])), (14, 0, 3), "{node:?}");
        assert_eq!(of_rule(&rule(&[TRUE, node, node])), (14, 1, 3), "{node:?}");
    }
}

/// Of kind 3 only c up to 255 passes row 14; of the others every c does.
#[test]
fn row_14_passed() {
    for (kind, c) in [(1, 65_535), (2, 65_535), (3, 0), (3, 255)] {
        for operation in [5, 6] {
            assert_eq!(of_rule(&rule(&[(operation, kind, 0, 0, c)])), (15, 0, 3), "{operation} {kind} {c}");
        }
    }
}

#[test]
fn rows_15_and_16() {
    assert_eq!(of_rule(&rule(&[not(0)])), (15, 0, 3));
    assert_eq!(of_rule(&rule(&[TRUE, (5, 1, 0, 1, 3)])), (15, 1, 3));
    assert_eq!(of_rule(&rule(&[TRUE, (3, 0, 0, 0, 0)])), (16, 0, 3));
    assert_eq!(of_rule(&rule(&[TRUE, TRUE, not(0)])), (16, 1, 3));
}

#[test]
fn rows_17_to_19() {
    let three = rule(&[TRUE, TRUE, (3, 0, 0, 1, 0)]);
    assert_eq!(with_room(&short(), &three, 8, 12), (17, 0, 5));
    assert_eq!(with_room(&short(), &three, 9, 11), (18, 0, 5));
    assert_eq!(with_room(&short(), &three, 9, 12), (0, 0, 0));
    assert_eq!(of_chart(&chart(&[0], &[[0, 0, 0, 0]])), (19, 0, 1));
}

/// The lowest number wins, whatever the order of the offenders in the bytes.
#[test]
fn number_order() {
    let late_7 = chart(&[0, 0], &[[0, 0, 5, 4], [0, 9, 0, 0]]);
    let looped = chart(&[0], &[[0, 0, 0, 0]]);
    assert_eq!(of_chart(&late_7), (7, 1, 1));
    assert_eq!(with_room(&looped, &[], 0, 0), (10, 0, 3));
    assert_eq!(with_room(&looped, &rule(&[TRUE]), 0, 0), (17, 0, 5));
    assert_eq!(with_room(&looped, &rule(&[TRUE]), 1, 0), (18, 0, 5));
    assert_eq!(of_rule(&rule(&[not(0), label(16)])), (14, 1, 3));
}
