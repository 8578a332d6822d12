//! Row.

use crate::call::{self, Place};

/// Which of two marks tables.
#[derive(Clone, Copy, Debug, PartialEq, Eq)]
pub enum Choice {
    Overview,
    Detail,
}

/// The part of the chosen table that holds row t, n marks a row; an empty part if the row doesn't lie wholly in it.
///
/// ```
/// use doilystrand::{row, Choice};
///
/// let (overview, detail) = ([1, 0], [1, 1, 0, 0, 0, 1]);
/// assert_eq!(row(&overview, &detail, Choice::Detail, 3, 1), [0, 0, 1]);
/// assert!(row(&overview, &detail, Choice::Overview, 3, 1).is_empty());
/// ```
#[must_use = "it only answers"]
pub fn row<'a>(overview: &'a [u8], detail: &'a [u8], choice: Choice, n: usize, t: usize) -> &'a [u8] {
    // SAFETY: only numbers cross.
    let place = unsafe { call::doilystrand_row(overview.len(), detail.len(), choice == Choice::Detail, n, t) };
    match choice {
        Choice::Overview => part(overview, &place),
        Choice::Detail => part(detail, &place),
    }
}

fn part<'a>(table: &'a [u8], place: &Place) -> &'a [u8] {
    let Place { start, size } = *place;
    let found = start.checked_add(size).and_then(|end| table.get(start..end));
    found.unwrap_or_else(|| {
        panic!("the library answers {size} bytes from byte {start} on, in a table of {} bytes", table.len())
    })
}

#[cfg(test)]
mod tests {
    use super::*;

    const TABLE: [u8; 6] = [1, 1, 0, 0, 0, 1];

    #[test]
    fn rows_are_parts_of_the_chosen_table() {
        let other = [1, 0];
        assert_eq!(row(&other, &TABLE, Choice::Detail, 2, 2).as_ptr(), TABLE[4..].as_ptr());
        assert_eq!(row(&other, &TABLE, Choice::Overview, 2, 0).as_ptr(), other.as_ptr());
        assert!(row(&other, &TABLE, Choice::Overview, 2, 1).is_empty());
        assert!(row(&other, &TABLE, Choice::Detail, usize::MAX, usize::MAX).is_empty());
    }

    #[test]
    fn parts_reach_up_to_the_end() {
        assert_eq!(part(&TABLE, &Place { start: 4, size: 2 }), [0, 1]);
        assert!(part(&TABLE, &Place { start: 6, size: 0 }).is_empty());
    }

    #[test]
    #[should_panic = "the library answers 3 bytes from byte 4 on, in a table of 6 bytes"]
    fn place_past_the_table_panics() {
        part(&TABLE, &Place { start: 4, size: 3 });
    }

    #[test]
    #[should_panic = "bytes from byte 1 on, in a table of 6 bytes"]
    fn greatest_place_panics() {
        part(&TABLE, &Place { start: 1, size: usize::MAX });
    }
}
