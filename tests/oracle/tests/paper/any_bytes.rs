//! Every call takes any input.

use crate::make::{label, map, rule, run, short, undo, Numbers, TRUE};
use crate::show_call::call;
use oracle::{
    arrow, calls_text, check, count, counted_listing, fewest_steps, has_leavable_loop_of_0_to_0, has_loop_of_fewest_0,
    judge_run, judge_why, kind_of_rule, listing, map_check, read_rule, rule_text, typed_rule, why_text, write_rule,
};

/// Some bytes replaced, then cut or lengthened now and then.
fn damaged(numbers: &mut Numbers, mut bytes: Vec<u8>) -> Vec<u8> {
    for _ in 0..numbers.below(4) {
        let at = numbers.below(bytes.len() as u64) as usize;
        bytes[at] = [0, 1, 2, 255][numbers.below(4) as usize];
    }
    if numbers.below(4) == 0 {
        bytes.resize(numbers.below(60) as usize, 1);
    }
    bytes
}

#[test]
fn damaged_bytes() {
    let mut numbers = Numbers(11);
    let three = rule(&[TRUE, TRUE, (6, 1, 0, 1, 4)]);
    for _ in 0..5000 {
        let (chart, overview) = (damaged(&mut numbers, short()), damaged(&mut numbers, undo()));
        let (rule, map) = (damaged(&mut numbers, three.clone()), damaged(&mut numbers, map(&[0, 1, 2])));
        let (marks, scratch) = (numbers.below(20) as usize, numbers.below(20) as usize);
        check(&chart, &rule, &mut vec![7; marks], &mut vec![9; scratch]);
        count(&chart, &rule, &mut vec![7; marks], &mut vec![9; 760 + scratch]);
        kind_of_rule(&rule);
        map_check(&chart, &overview, &map);
        listing(&chart, &rule);
        counted_listing(&chart, &rule);
        calls_text(&chart, &rule, &map);
        arrow(&chart, numbers.below(5) as usize);
        has_loop_of_fewest_0(&chart);
        has_leavable_loop_of_0_to_0(&chart);
    }
}

/// The oracle's own answers are right, and runs of any bytes are judged.
#[test]
fn damaged_bytes_shown() {
    let mut numbers = Numbers(12);
    let three = rule(&[TRUE, label(2), (6, 1, 0, 1, 4)]);
    let given = run(&[(0, 10), (1, 4), (2, 0)]);
    for _ in 0..5000 {
        let (chart, rule) = (damaged(&mut numbers, undo()), damaged(&mut numbers, three.clone()));
        let (node, state) = (numbers.below(4) as usize, numbers.below(4) as usize);
        call(&chart, &rule, node, state, [5 + numbers.below(20) as usize, 1_000, numbers.below(40) as usize]);
        let _ = judge_run(&chart, &rule, node, state, &damaged(&mut numbers, given.clone()));
        fewest_steps(&chart, &rule, node, state);
        assert_eq!(judge_why(&chart, &rule, node, state, &why_text(&chart, &rule, node, state)), Ok(()));
    }
}

/// What is written is read again, and what is read is written again.
#[test]
fn damaged_rules_and_texts() {
    let mut numbers = Numbers(13);
    let three = rule(&[TRUE, label(2), (6, 1, 0, 1, 4)]);
    for _ in 0..5000 {
        let (rule, text) = (damaged(&mut numbers, three.clone()), damaged(&mut numbers, b"A(true U<=4 L2)".to_vec()));
        let (mut output, mut back) = ([7; 40], [7; 40]);
        let wrote = write_rule(&rule, &mut output[..numbers.below(40) as usize]).written;
        assert!(wrote == 0 || read_rule(&output[..wrote], &mut back).written == rule.len());
        let wrote = read_rule(&text, &mut output[..numbers.below(40) as usize]).written;
        assert!(wrote == 0 || write_rule(&output[..wrote], &mut back).written == text.len());
        typed_rule(&rule);
        rule_text(&text);
    }
}

#[test]
fn all_ones_and_nothing() {
    for length in 0..40 {
        let bytes = vec![255; length];
        assert_eq!(check(&bytes, &bytes, &mut [], &mut []).number, if length < 9 { 1 } else { 2 });
        assert_eq!(count(&bytes, &bytes, &mut [], &mut []).number, if length < 9 { 1 } else { 2 });
        assert_eq!(kind_of_rule(&bytes).outcome.number, if length < 7 { 10 } else { 11 });
        assert_eq!(map_check(&short(), &short(), &bytes).number, 20);
        assert_eq!(write_rule(&bytes, &mut []).outcome.number, if length < 7 { 10 } else { 11 });
        assert_eq!(read_rule(&bytes, &mut []).outcome.number, 64);
    }
}
