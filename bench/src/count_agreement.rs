//! Library and both peers compared on every input of count, and all with check.

use crate::count::{lent, Count, ROWS};
use crate::input::{Buffers, Input};
use bench::{counted, exact};
use std::collections::BTreeMap;

/// As many of the drawn charts as take no notable time.
const DRAWN: u64 = 100;

pub fn count_agreement() -> Result<(), String> {
    let mut rows = counted::rows();
    for chart in counted::GROWING {
        rows.extend(counted::GROWTH.map(|c| (chart, counted::name("mixed", c))));
    }
    for (chart, rule) in &rows {
        Count::named(chart, rule)?.accepted().map_err(|why| format!("count, {chart}, {rule}: {why}"))?;
    }
    let mut counts = BTreeMap::new();
    for seed in 0..DRAWN {
        let numbers = drawn(seed).map_err(|why| format!("count, seed-{seed}: {why}"))?;
        numbers.into_iter().for_each(|number| *counts.entry(number).or_insert(0) += 1);
    }
    let counts: Vec<String> = counts.iter().map(|(number, count)| format!("{number} {count} times")).collect();
    println!(
        "Library and both peers count the minutes to the marks of check on all {} inputs of count. On",
        rows.len()
    );
    println!("drawn charts they answer alike: {}.", counts.join(", "));
    Ok(())
}

/// The numbers that all answer to a drawn chart and rule: with the bounds as drawn, with near ones, with exact ones among
/// these, and with a number of scratch too few.
fn drawn(seed: u64) -> Result<[u32; 4], String> {
    let far = Count { input: Input::drawn(seed) };
    let with = |rule| Count { input: Input { rule, ..Input::drawn(seed) } };
    let near = with(counted::near(Input::drawn(seed).rule));
    let exact = with(exact::made_exact(near.input.rule.clone()));
    near.accepted()?;
    exact.accepted()?;
    let scratch = ROWS * usize::from(near.input.sizes()[0]);
    let enough = || Buffers::with_scratch(scratch);
    let short = || Buffers::with_scratch(scratch - 1);
    let numbers = [far.agree(lent)?, near.agree(enough)?, exact.agree(enough)?, near.agree(short)?];
    Ok(numbers.map(|outcome| outcome.number))
}
