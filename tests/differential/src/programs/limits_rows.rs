//! Rows at the end of tables that are longer than what is read of them, and asks of any length.

use crate::programs::asks;
use crate::programs::files::{Files, Stored};
use crate::programs::limits::{add, calls, files, List};

/// No two bytes beside each other alike; the first one is no version.
fn table(length: usize) -> Vec<u8> {
    (0..length).map(|i| (i % 251) as u8).collect()
}

fn test(list: &mut List, ask: Vec<u8>, row: &[u8]) {
    let name = format!("ask {ask:?}, a row of {} bytes", row.len());
    let asked = Files { ask: Stored::Bytes(ask), ..files(table(17_000), table(600)) };
    add(list, &name, asked, "refused 2 at 0 1\n", calls(row, &[]));
}

/// Around the end of what is read; any choice but 0 is the detail.
fn ends(list: &mut List) {
    for (choice, read) in [(0, 16_906), (1, 520), (255, 520)] {
        let (whole, n) = (table(read), read as u16);
        let mut row = |n, t, part: &[u8]| test(list, asks::bytes(choice, n, t), part);
        row(n, 0, &whole);
        row(n + 1, 0, &[]);
        row(n / 2, 1, &whole[read / 2..]);
        row(n / 2, 2, &[]);
        row(1, n - 1, &whole[read - 1..]);
        row(1, n, &[]);
        row(3, 2, &whole[6..9]);
        row(0, 0, &[]);
        row(0, 65_535, &[]);
        row(65_535, 0, &[]);
        row(65_535, 65_535, &[]);
    }
}

/// Missing bytes count as 0, those after the fifth for nothing.
fn lengths(list: &mut List) {
    test(list, vec![1], &[]);
    test(list, vec![1, 0], &[]);
    test(list, vec![0, 0, 2], &[0, 1]);
    test(list, vec![1, 0, 3], &[0, 1, 2]);
    test(list, vec![0, 0, 2, 1], &[10, 11]);
    test(list, vec![0, 0, 2, 0, 3, 9, 9], &[6, 7]);
    test(list, vec![0, 1, 0, 0, 1], &table(512)[256..]);
}

pub fn all(list: &mut List) {
    ends(list);
    lengths(list);
}
