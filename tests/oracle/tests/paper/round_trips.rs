//! A text that is read and written back is the same; a rule that is written and read keeps its tree.

use crate::formulas::some_formula;
use crate::make::Numbers;
use crate::text_call::{read, write};

#[test]
fn formulas_of_all_sizes() {
    let mut numbers = Numbers(54);
    for round in 0..6_400 {
        let formula = some_formula(&mut numbers, 1 + round % 64);
        let (text, rule) = (formula.text().into_bytes(), formula.rule(&mut || false));
        assert_eq!(formula.count(), usize::from(rule[6]));
        assert_eq!(read(&text), Ok(rule.clone()));
        assert_eq!(write(&rule), Ok(text));
    }
}

/// A rule with right operands first has the same text, and that reads as other bytes: those with the left ones first.
#[test]
fn right_operands_first() {
    let mut numbers = Numbers(55);
    let mut others = 0;
    for round in 0..6_400 {
        let formula = some_formula(&mut numbers, 1 + round % 64);
        let (left, mixed) = (formula.rule(&mut || false), formula.rule(&mut || numbers.below(2) == 0));
        let text = write(&mixed).expect("an accepted rule");
        assert_eq!(text, formula.text().into_bytes());
        assert_eq!(read(&text), Ok(left.clone()));
        others += usize::from(left != mixed);
    }
    assert!(others > 3_000, "{others}");
}
