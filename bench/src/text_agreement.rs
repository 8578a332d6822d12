//! Library and peer compared on every input of read and write, on drawn rules, and on their texts with single edits.

use crate::typing::{Call, Typing, ROOM};
use bench::exact::made_exact;
use bench::peer::Written;
use bench::{drawn, edited, texts};
use std::collections::BTreeMap;

/// As many as take no notable time.
const DRAWN: u64 = 400;

/// How often each number was answered.
type Counts = BTreeMap<u32, usize>;

pub fn text_agreement() -> Result<(), String> {
    let names = texts::READS.into_iter().chain(texts::WRITES);
    for name in names.clone() {
        named(name).map_err(|why| format!("{name}: {why}"))?;
    }
    println!("Library and peer give equal answers and outputs on all {} inputs of read and write.", names.count());
    let (mut read, mut written) = (Counts::new(), Counts::new());
    for seed in 0..DRAWN {
        drawn_rule(seed, &mut written).map_err(|why| format!("write, seed-{seed}: {why}"))?;
        drawn_texts(seed, &mut read).map_err(|why| format!("read, seed-{seed}: {why}"))?;
    }
    println!("On drawn rules and on their texts with single edits they answer alike");
    println!("to write: {};", told(&written));
    println!("to read: {}.", told(&read));
    Ok(())
}

fn told(counts: &Counts) -> String {
    let told: Vec<String> = counts.iter().map(|(number, count)| format!("{number} {count} times")).collect();
    told.join(", ")
}

/// With outputs of every length about what it takes.
fn named(name: &str) -> Result<(), String> {
    let (typing, answer) = Typing::named(name)?;
    let Written { outcome, written } = typing.agree(ROOM)?;
    if outcome != answer {
        return Err(format!("both answer {outcome:?}, not {answer:?}"));
    }
    outputs(&typing, written, &mut Counts::new())
}

/// Just enough, one byte more and fewer, and none.
fn outputs(typing: &Typing, written: usize, counts: &mut Counts) -> Result<(), String> {
    for output in [written + 1, written, written.saturating_sub(1), 0] {
        *counts.entry(typing.agree(output)?.outcome.number).or_insert(0) += 1;
    }
    Ok(())
}

/// A rule as it is, with one byte another, and cut.
fn drawn_rule(seed: u64, counts: &mut Counts) -> Result<(), String> {
    let rule = if seed % 2 == 0 { drawn::rule(seed) } else { made_exact(drawn::rule(seed)) };
    let at = 7 + seed as usize % (rule.len() - 7);
    let other = [&rule[..at], &[rule[at] ^ 1 << (seed % 8)], &rule[at + 1..]].concat();
    let cut = rule[..at].to_vec();
    for bytes in [rule, other, cut] {
        let typing = Typing { call: Call::Write, bytes };
        let written = typing.agree(ROOM)?.written;
        outputs(&typing, written, counts)?;
    }
    Ok(())
}

fn drawn_texts(seed: u64, counts: &mut Counts) -> Result<(), String> {
    for bytes in edited::texts(seed) {
        let typing = Typing { call: Call::Read, bytes };
        let answer = typing.agree(ROOM)?;
        *counts.entry(answer.outcome.number).or_insert(0) += 1;
        if answer.outcome.number == 0 {
            outputs(&typing, answer.written, counts)?;
        }
    }
    Ok(())
}
