//! Row 19, for the overview too: "a state from which no loop holding an arrow with most above 0 can be reached".

use crate::make::{chart, map, one, rule, short, ArrowFields, NO_END, TRUE};
use crate::told::told;
use oracle::{check, count, map_check};

/// The place where these arrows are refused. Check, count and map check, for both its charts, say the same.
fn place_19(n: usize, arrows: &[ArrowFields]) -> Option<u32> {
    let (chart, rule) = (chart(&vec![0; n], arrows), rule(&[TRUE]));
    let (mut marks, mut scratch) = (vec![7; n], vec![9; 4 * n + 1]);
    let outcome = check(&chart, &rule, &mut marks, &mut scratch);
    let refused = outcome.number != 0;
    assert_eq!(count(&chart, &rule, &mut vec![7; n], &mut vec![9; 256 * n]), outcome);
    assert_eq!(scratch, [vec![0; 4 * n], vec![9]].concat());
    assert_eq!(marks, vec![if refused { 7 } else { 1 }; n]);
    let place = outcome.place;
    assert_eq!(told(outcome), if refused { (19, place, 1) } else { (0, 0, 0) });
    assert_eq!(told(map_check(&one(), &chart, &[])), if refused { (19, place, 2) } else { (20, 0, 4) });
    assert_eq!(told(map_check(&chart, &[], &[])), if refused { (19, place, 1) } else { (1, 0, 2) });
    refused.then_some(place)
}

#[test]
fn the_row_s_example_and_its_neighbours() {
    assert_eq!(place_19(1, &[[0, 0, 0, 0]]), Some(0));
    for most in [1, 3, 65_534, NO_END] {
        assert_eq!(place_19(1, &[[0, 0, 0, most]]), None, "{most}");
    }
    assert_eq!(place_19(1, &[[0, 0, 0, 0], [0, 0, 0, 0]]), Some(0));
    assert_eq!(place_19(1, &[[0, 0, 0, 0], [0, 0, 0, 3]]), None);
}

#[test]
fn one_arrow_of_the_loop_is_enough() {
    assert_eq!(place_19(2, &[[0, 1, 0, 3], [1, 0, 0, 3]]), None);
    assert_eq!(place_19(2, &[[0, 1, 0, 0], [1, 0, 0, 3]]), None);
    assert_eq!(place_19(2, &[[0, 1, 0, 3], [1, 0, 0, 0]]), None);
    assert_eq!(place_19(2, &[[0, 1, 0, 0], [1, 0, 0, 0]]), Some(0));
}

/// An arrow with most above 0 on no loop doesn't help.
#[test]
fn the_arrow_lies_on_the_loop() {
    assert_eq!(place_19(2, &[[0, 1, 1, 1], [1, 1, 0, 0]]), Some(0));
    assert_eq!(place_19(3, &[[0, 1, 1, 1], [1, 1, 0, 0], [2, 2, 0, 1]]), Some(0));
    assert_eq!(place_19(3, &[[0, 1, 1, NO_END], [1, 2, 7, 8], [2, 1, 0, 0], [1, 1, 0, 0]]), None);
    assert_eq!(place_19(3, &[[0, 1, 1, NO_END], [1, 2, 0, 0], [2, 1, 0, 0], [0, 2, 7, 8]]), Some(0));
}

/// Reaching a loop is enough, being on one of 0 to 0 does no harm, and only states that can't are named.
#[test]
fn the_lowest_state_that_cannot_reach() {
    assert_eq!(place_19(2, &[[0, 0, 0, 0], [0, 1, 0, 0], [1, 1, 1, 1]]), None);
    assert_eq!(place_19(3, &[[0, 1, 0, 0], [1, 0, 0, 0], [1, 2, 0, 0], [2, 2, 0, 2]]), None);
    assert_eq!(place_19(3, &[[0, 0, 1, 1], [1, 0, 0, 0], [2, 2, 0, 0]]), Some(2));
    assert_eq!(place_19(3, &[[0, 2, 0, 0], [0, 0, 0, 1], [1, 2, 5, 5], [2, 2, 0, 0]]), Some(1));
    assert_eq!(place_19(3, &[[0, 2, 0, 0], [1, 1, 0, 1], [1, 0, 9, 9], [2, 0, 0, 0]]), Some(0));
}

#[test]
fn the_most_states() {
    let selves: Vec<ArrowFields> = (0..256).map(|s| [s, s, 0, u16::from(s < 200)]).collect();
    assert_eq!(place_19(256, &selves), Some(200));
    let ring = |most| (0..256).map(|s| [s, (s + 1) % 256, 0, if s == 77 { most } else { 0 }]).collect::<Vec<_>>();
    assert_eq!(place_19(256, &ring(0)), Some(0));
    assert_eq!(place_19(256, &ring(1)), None);
}

#[test]
fn covered_by_loops_of_fewest_0() {
    let looped = |most| chart(&[0], &[[0, 0, 0, most]]);
    for (detail, overview, refused) in
        [(3, 3, (0, 0, 0)), (2, NO_END, (0, 0, 0)), (3, 2, (23, 0, 1)), (0, 3, (19, 0, 1)), (3, 0, (19, 0, 2))]
    {
        let outcome = map_check(&looped(detail), &looped(overview), &map(&[0]));
        assert_eq!(told(outcome), refused, "{detail} {overview}");
    }
    assert_eq!(told(map_check(&short(), &looped(0), &[])), (19, 0, 2));
}
