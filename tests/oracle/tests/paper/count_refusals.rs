//! Row 63, and the rows after it as count tests them; the rows before it are among check's.

use crate::make::{chart, label, not, rule, short, true_l2, NodeFields, A, AT_LEAST, AT_MOST, E, TRUE};
use crate::told::{told, Told};
use oracle::{check, count};

fn with_room(chart: &[u8], rule: &[u8], marks: usize, scratch: usize) -> Told {
    told(count(chart, rule, &mut vec![7; marks], &mut vec![9; scratch]))
}

/// Untils within each other, nodes 2, 4 and 7, with these bounds.
fn three_untils(bounds: [u16; 3]) -> Vec<u8> {
    let [inner, middle, outer] = bounds;
    let untils: [NodeFields; 2] = [(E, AT_LEAST, 0, 1, inner), (A, AT_MOST, 2, 3, middle)];
    rule(&[TRUE, label(0), untils[0], TRUE, untils[1], not(4), TRUE, (A, AT_LEAST, 5, 6, outer)])
}

#[test]
fn row_63() {
    for (bounds, refused) in [
        ([255, 255, 255], (0, 0, 0)),
        ([256, 255, 255], (63, 2, 3)),
        ([0, 256, 0], (63, 4, 3)),
        ([255, 0, 65_535], (63, 7, 3)),
        ([0, 300, 400], (63, 4, 3)),
        ([65_535, 65_535, 65_535], (63, 2, 3)),
    ] {
        assert_eq!(with_room(&short(), &three_untils(bounds), 24, 768), refused, "{bounds:?}");
        assert_eq!(check(&short(), &three_untils(bounds), &mut [7; 24], &mut [9; 12]).number, 0);
    }
}

#[test]
fn row_63_comes_after_16_and_before_17() {
    let looped = chart(&[0], &[[0, 0, 0, 0]]);
    for chart in [short(), looped.clone()] {
        assert_eq!(with_room(&chart, &true_l2(A, AT_MOST, 256), 0, 0), (63, 2, 3));
        assert_eq!(with_room(&chart, &true_l2(A, AT_MOST, 255), 0, 0), (17, 0, 5));
    }
    assert_eq!(with_room(&looped, &true_l2(E, AT_LEAST, 256), 3, 256), (63, 2, 3));
    assert_eq!(with_room(&short(), &rule(&[TRUE, TRUE, (A, AT_MOST, 0, 0, 256)]), 0, 0), (16, 0, 3));
    assert_eq!(with_room(&short(), &rule(&[TRUE, TRUE, (A, AT_MOST, 0, 2, 256)]), 0, 0), (15, 2, 3));
    assert_eq!(with_room(&short(), &rule(&[TRUE, TRUE, (A, 3, 0, 1, 256)]), 0, 0), (14, 2, 3));
    assert_eq!(with_room(&[], &true_l2(A, AT_MOST, 256), 0, 0), (1, 0, 1));
}

/// The size is the same for every rule.
#[test]
fn rows_17_to_19() {
    for (rule, k) in [(rule(&[TRUE]), 1), (true_l2(A, AT_MOST, 0), 3), (true_l2(E, AT_LEAST, 255), 3)] {
        assert_eq!(with_room(&short(), &rule, 3 * k - 1, 768), (17, 0, 5));
        assert_eq!(with_room(&short(), &rule, 3 * k - 1, 0), (17, 0, 5));
        assert_eq!(with_room(&short(), &rule, 3 * k, 767), (18, 0, 5));
        assert_eq!(with_room(&short(), &rule, 3 * k, 12), (18, 0, 5));
        assert_eq!(with_room(&short(), &rule, 3 * k, 768), (0, 0, 0));
    }
    let looped = chart(&[0; 2], &[[0, 0, 1, 1], [1, 1, 0, 0]]);
    assert_eq!(with_room(&looped, &rule(&[TRUE]), 2, 511), (18, 0, 5));
    assert_eq!(with_room(&looped, &rule(&[TRUE]), 2, 512), (19, 1, 1));
}
