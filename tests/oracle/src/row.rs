//! Row: a part of one of two lent marks tables.

use crate::answers::Choice;

/// The empty part handed out is the one at the start of the chosen table.
pub fn row<'a>(overview: &'a [u8], detail: &'a [u8], choice: Choice, n: usize, t: usize) -> &'a [u8] {
    let table = match choice {
        Choice::Overview => overview,
        Choice::Detail => detail,
    };
    part(table, n, t).unwrap_or(&table[..0])
}

/// None where the row's end is past the table or past every number; n = 0 gives the empty part for any t.
fn part(table: &[u8], n: usize, t: usize) -> Option<&[u8]> {
    let start = n.checked_mul(t)?;
    let end = start.checked_add(n)?;
    table.get(start..end)
}
