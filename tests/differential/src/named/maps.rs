//! Rows 20 to 23 of the refusal table, each with the neighbour that passes.

use crate::bytes::chart::NO_END;
use crate::named::charts::{resized, single, with_first, List};
use crate::named::expected::{add, identity, map, map_of, short, Expected};

fn maps_frame(list: &mut List) {
    let chart = || short().bytes();
    let mut test = |name: &str, bytes: Vec<u8>, number, place, entry| {
        add(list, name, map(chart(), chart(), bytes), Expected::Outcome(number, place, entry));
    };
    let whole = identity(3);
    test("row 20: empty map", vec![], 20, 0, 4);
    test("row 20: 6 bytes", resized(whole.clone(), 6, true), 20, 0, 4);
    test("row 20: version 2", with_first(whole.clone(), 2), 20, 0, 4);
    test("row 20: 13 stated, 14 lent", resized(whole.clone(), 14, false), 20, 0, 4);
    test("row 20: 14 stated, 14 lent", resized(whole.clone(), 14, true), 20, 0, 4);
    test("row 20: 12 stated, 12 lent", resized(whole.clone(), 12, true), 20, 0, 4);
    test("row 20: count 2, n = 3", identity(2), 20, 0, 4);
    test("row 20: count 4, n = 3", identity(4), 20, 0, 4);
    test("row 20 passed: count 3", whole, 0, 0, 0);
    test("row 21: entry 3, overview n = 3", map_of(&[0, 1, 3]), 21, 2, 4);
    test("row 21: entries 1 and 2", map_of(&[0, 3, 3]), 21, 1, 4);
    test("row 22: states 1 and 2", map_of(&[0, 0, 0]), 22, 1, 4);
    test("row 21: entry 3 of state 1", map_of(&[0, 3, 2]), 21, 1, 4);
    test("row 22: state 1", map_of(&[0, 0, 2]), 22, 1, 4);
    test("row 21: entry 65,535", map_of(&[65_535, 3, 2]), 21, 0, 4);
    test("row 21 passed: entry 2", map_of(&[0, 1, 2]), 0, 0, 0);
    test("row 21 passed, 22 met: entry 2 twice", map_of(&[0, 2, 2]), 22, 1, 4);
}

fn maps_cover(list: &mut List) {
    let mut test = |name: &str, detail, overview, number, place, entry| {
        let case = map(detail, overview, identity(1));
        add(list, name, case, Expected::Outcome(number, place, entry));
    };
    test("row 22: 1 against 2", single(1, &[(5, 5)]), single(2, &[(5, 5)]), 22, 0, 4);
    test("row 22 passed: 2 against 2", single(2, &[(5, 5)]), single(2, &[(5, 5)]), 0, 0, 0);
    test("row 22: 1 against 3", single(1, &[(5, 5)]), single(3, &[(5, 5)]), 22, 0, 4);
    test("row 22: 3 against 1", single(3, &[(5, 5)]), single(1, &[(5, 5)]), 22, 0, 4);
    test("row 22: label 15", single(0x8000, &[(5, 5)]), single(0, &[(5, 5)]), 22, 0, 4);
    let mut cover = |name: &str, detail: &[(u16, u16)], overview: &[(u16, u16)], number, place, entry| {
        test(name, single(7, detail), single(7, overview), number, place, entry);
    };
    cover("row 23: 4 to 9, overview only 5 to 10", &[(4, 9)], &[(5, 10)], 23, 0, 1);
    cover("row 23 passed: 5 to 9", &[(5, 9)], &[(5, 10)], 0, 0, 0);
    cover("row 23 passed: 5 to 10", &[(5, 10)], &[(5, 10)], 0, 0, 0);
    cover("row 23: 5 to 11", &[(5, 11)], &[(5, 10)], 23, 0, 1);
    cover("row 23: the second arrow", &[(5, 10), (4, 4)], &[(5, 10)], 23, 1, 1);
    cover("row 23: arrows 1 and 2", &[(5, 10), (4, 4), (11, 11)], &[(5, 10)], 23, 1, 1);
    cover("row 23: several joined", &[(5, 10)], &[(5, 7), (8, 10)], 23, 0, 1);
    cover("row 23: several overlapping", &[(5, 10)], &[(5, 9), (6, 10)], 23, 0, 1);
    cover("row 23 passed: one of several", &[(5, 10)], &[(5, 9), (4, 11)], 0, 0, 0);
    cover("row 23: no end under 65,534", &[(5, NO_END)], &[(5, 65_534)], 23, 0, 1);
    cover("row 23 passed: 65,534 under no end", &[(5, 65_534)], &[(5, NO_END)], 0, 0, 0);
    cover("row 23 passed: no end under no end", &[(5, NO_END)], &[(5, NO_END)], 0, 0, 0);
    cover("row 23: 4 to no end under 5 to no end", &[(4, NO_END)], &[(5, NO_END)], 23, 0, 1);
}

pub fn all(list: &mut List) {
    maps_frame(list);
    maps_cover(list);
}
