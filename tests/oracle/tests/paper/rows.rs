//! Row.

use oracle::{row, Choice};

const OVERVIEW: [u8; 7] = [0, 1, 2, 3, 4, 5, 6];
const DETAIL: [u8; 2] = [8, 9];

fn overview(n: usize, t: usize) -> &'static [u8] {
    row(&OVERVIEW, &DETAIL, Choice::Overview, n, t)
}

#[test]
fn the_row_itself() {
    assert!(std::ptr::eq(overview(3, 1), &OVERVIEW[3..6]));
    assert!(std::ptr::eq(overview(7, 0), &OVERVIEW[..]));
    assert!(std::ptr::eq(row(&OVERVIEW, &DETAIL, Choice::Detail, 1, 1), &DETAIL[1..]));
}

#[test]
fn empty_where_the_row_is_not_wholly_there() {
    let huge = usize::MAX;
    for (n, t) in
        [(3, 2), (8, 0), (1, 7), (0, 0), (0, huge), (huge, 0), (huge, 1), (1, huge), (huge, huge), (2, huge / 2)]
    {
        let part = overview(n, t);
        assert!(part.is_empty(), "{n} {t}");
        assert!(OVERVIEW.as_ptr_range().contains(&part.as_ptr()));
    }
}

#[test]
fn empty_tables() {
    assert!(row(&[], &[], Choice::Detail, 1, 0).is_empty());
    assert!(row(&[], &[], Choice::Overview, 0, 0).is_empty());
}
