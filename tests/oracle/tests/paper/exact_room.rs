//! The room that rules with an exact bound ask for, and what is left there: "256 × n scratch numbers, zero where 4n were".

use crate::make::{chart, label, not, rule, short, true_l2, NodeFields, A, AT_LEAST, AT_MOST, E, EXACTLY, TRUE};
use crate::show_call::call;
use crate::told::told;
use oracle::{check, count, listing};

/// Number, and how many leading scratch numbers are 0; the others are as lent.
fn checked(chart: &[u8], rule: &[u8], marks: usize, scratch: usize) -> (u32, usize) {
    let mut scratch = vec![9; scratch];
    let number = check(chart, rule, &mut vec![7; marks], &mut scratch).number;
    (number, zeros(&scratch))
}

fn zeros(scratch: &[u32]) -> usize {
    let zeros = scratch.iter().take_while(|&&number| number == 0).count();
    assert!(scratch[zeros..].iter().all(|&number| number == 9));
    zeros
}

#[test]
fn row_18_follows_the_size() {
    let exact = true_l2(E, EXACTLY, 0);
    assert_eq!(checked(&short(), &exact, 9, 12), (18, 0));
    assert_eq!(checked(&short(), &exact, 9, 767), (18, 0));
    assert_eq!(checked(&short(), &exact, 9, 768), (0, 768));
    assert_eq!(checked(&short(), &exact, 9, 800), (0, 768));
    assert_eq!(checked(&short(), &exact, 8, 767), (17, 0));
    for other in [true_l2(E, AT_MOST, 0), true_l2(A, AT_LEAST, 255), rule(&[TRUE])] {
        assert_eq!(checked(&short(), &other, 9, 11), (18, 0));
        assert_eq!(checked(&short(), &other, 9, 12), (0, 12));
        assert_eq!(checked(&short(), &other, 9, 800), (0, 12));
    }
}

/// One such node is enough, wherever it stands.
#[test]
fn anywhere_in_the_rule() {
    let first: [NodeFields; 3] = [TRUE, label(0), (A, EXACTLY, 0, 1, 0)];
    let last: NodeFields = (E, AT_MOST, 3, 4, 60_000);
    let deep = [first.as_slice(), &[not(2), TRUE, last, not(5)]].concat();
    let beside = [label(1), TRUE, TRUE, (E, EXACTLY, 1, 2, 0), (3, 0, 3, 0, 0)];
    for nodes in [deep.as_slice(), &beside] {
        let marks = 3 * nodes.len();
        assert_eq!(checked(&short(), &rule(nodes), marks, 767), (18, 0));
        assert_eq!(checked(&short(), &rule(nodes), marks, 768), (0, 768));
    }
}

#[test]
fn refused_19_clears_as_much() {
    let looped = chart(&[0, 0], &[[0, 1, 0, 0], [1, 0, 0, 0]]);
    assert_eq!(checked(&looped, &true_l2(E, EXACTLY, 0), 6, 511), (18, 0));
    assert_eq!(checked(&looped, &true_l2(E, EXACTLY, 0), 6, 520), (19, 512));
    assert_eq!(checked(&looped, &true_l2(E, AT_MOST, 0), 6, 520), (19, 8));
}

/// Kind 3 with c above 255 is refused by its form, before 63 and whatever is lent.
#[test]
fn never_63() {
    for c in [256, 257, 65_535] {
        assert_eq!(told(count(&short(), &true_l2(A, EXACTLY, c), &mut [], &mut [])), (14, 2, 3));
        assert_eq!(checked(&short(), &true_l2(A, EXACTLY, c), 0, 0), (14, 0));
    }
    let exact = true_l2(A, EXACTLY, 255);
    assert_eq!(told(count(&short(), &exact, &mut [7; 9], &mut [9; 768])), (0, 0, 0));
    assert_eq!(told(count(&short(), &exact, &mut [7; 9], &mut [9; 767])), (18, 0, 5));
    assert_eq!(told(count(&short(), &exact, &mut [], &mut [])), (17, 0, 5));
}

/// Show asks for check's size first, then for its own; what it leaves goes by the rule too.
#[test]
fn of_show() {
    let shown = |rule: &[u8], at: [usize; 2], scratch: usize, output: usize| {
        let called = call(&short(), rule, at[0], at[1], [9, scratch, output]);
        (called.answer.0, zeros(&called.scratch))
    };
    let exact = true_l2(E, EXACTLY, 5);
    assert_eq!(shown(&exact, [2, 0], 767, 18), (18, 0));
    assert_eq!(shown(&exact, [2, 0], 768, 18), (61, 768));
    assert_eq!(shown(&exact, [2, 0], 770, 18), (61, 768));
    assert_eq!(shown(&exact, [2, 0], 771, 18), (0, 771));
    assert_eq!(shown(&exact, [2, 0], 780, 17), (62, 771));
    assert_eq!(shown(&exact, [2, 1], 780, 18), (60, 768));
    assert_eq!(shown(&exact, [2, 1], 768, 0), (60, 768));
    assert_eq!(shown(&true_l2(A, EXACTLY, 5), [2, 0], 780, 18), (60, 768));
    assert_eq!(shown(&true_l2(E, AT_MOST, 5), [2, 0], 770, 18), (61, 12));
}

/// "the desk program lends 65,536": so it never meets 18.
#[test]
fn the_desk_lends_enough() {
    let ring: Vec<_> = (0..256).map(|s| [s, (s + 1) % 256, 1, 1]).collect();
    let listed = listing(&chart(&[4; 256], &ring), &true_l2(A, EXACTLY, 255));
    let row = "1".repeat(256);
    assert_eq!(listed, format!("states 256 nodes 3\n0 {row}\n1 {row}\n2 {row}\n"));
}
