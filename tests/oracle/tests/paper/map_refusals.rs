//! The small input of rows 20 to 23, the chart's rows for the overview, and what covers.

use crate::make::{chart, map, one, short, undo, ArrowFields, NO_END};
use crate::told::{told, Told};
use oracle::map_check;

fn refused(detail: &[u8], overview: &[u8], map: &[u8]) -> Told {
    told(map_check(detail, overview, map))
}

#[test]
fn charts_first() {
    let looped = chart(&[0], &[[0, 0, 0, 0]]);
    let dead_end = chart(&[0, 0], &[[0, 0, 1, 1]]);
    assert_eq!(refused(&[], &[], &[]), (1, 0, 1));
    assert_eq!(refused(&dead_end, &[], &[]), (9, 1, 1));
    assert_eq!(refused(&looped, &[], &[]), (19, 0, 1));
    assert_eq!(refused(&one(), &[], &[]), (1, 0, 2));
    assert_eq!(refused(&short(), &[], &[]), (1, 0, 2));
    assert_eq!(refused(&one(), &dead_end, &[]), (9, 1, 2));
    assert_eq!(refused(&one(), &looped, &[]), (19, 0, 2));
}

#[test]
fn row_20() {
    let right = map(&[0, 1, 2]);
    let mut version_2 = right.clone();
    version_2[0] = 2;
    let mut count_2 = right.clone();
    count_2[6] = 2;
    let longer = [right.clone(), vec![0]].concat();
    for wrong in [vec![], version_2, count_2, longer, map(&[0, 1]), map(&[0, 1, 2, 0])] {
        assert_eq!(refused(&short(), &short(), &wrong), (20, 0, 4), "{wrong:?}");
    }
    assert_eq!(refused(&short(), &short(), &right), (0, 0, 0));
}

#[test]
fn rows_21_and_22() {
    assert_eq!(refused(&short(), &short(), &map(&[0, 1, 3])), (21, 2, 4));
    assert_eq!(refused(&short(), &short(), &map(&[0, 3, 2])), (21, 1, 4));
    assert_eq!(refused(&short(), &short(), &map(&[0, 0, 2])), (22, 1, 4));
    assert_eq!(refused(&short(), &short(), &map(&[1, 3, 3])), (21, 1, 4));
    assert_eq!(refused(&short(), &short(), &map(&[0, 0, 0])), (22, 1, 4));
    assert_eq!(refused(&chart(&[1], &[[0, 0, 1, 1]]), &chart(&[2], &[[0, 0, 1, 1]]), &map(&[0])), (22, 0, 4));
}

fn one_state(arrows: &[ArrowFields]) -> Vec<u8> {
    chart(&[0], arrows)
}

fn covered(detail: ArrowFields, overview: &[ArrowFields]) -> bool {
    match refused(&one_state(&[[0, 0, 7, 7], detail]), &one_state(&[&[[0, 0, 7, 7]], overview].concat()), &map(&[0])) {
        (0, 0, 0) => true,
        other => {
            assert_eq!(other, (23, 1, 1));
            false
        }
    }
}

#[test]
fn row_23() {
    assert!(!covered([0, 0, 4, 9], &[[0, 0, 5, 10]]));
    assert!(covered([0, 0, 5, 10], &[[0, 0, 5, 10]]));
    assert!(!covered([0, 0, 5, 11], &[[0, 0, 5, 10]]));
    assert!(!covered([0, 0, 1, 8], &[[0, 0, 1, 4], [0, 0, 5, 8]]));
    assert!(covered([0, 0, 3, 65_534], &[[0, 0, 2, NO_END]]));
    assert!(covered([0, 0, 3, NO_END], &[[0, 0, 2, NO_END]]));
    assert!(!covered([0, 0, 3, NO_END], &[[0, 0, 2, 65_534]]));
}

#[test]
fn undo_covers_short_and_not_the_other_way_round() {
    assert_eq!(refused(&short(), &undo(), &map(&[0, 1, 2])), (0, 0, 0));
    assert_eq!(refused(&undo(), &short(), &map(&[0, 1, 2])), (23, 3, 1));
}
