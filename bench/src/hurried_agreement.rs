//! Library and peers compared on charts whose loops can be taken in no time, where they are accepted and where they are not.

use crate::count::{lent, Count};
use crate::input::Input;
use crate::show::{Lent, Show};
use bench::{counted, drawn, exact};
use std::collections::BTreeMap;

/// As many as take no notable time.
const HURRIED: u64 = 400;

pub fn hurried_agreement() -> Result<(), String> {
    let mut counts = BTreeMap::new();
    for seed in 0..HURRIED {
        let numbers = answers(seed).map_err(|why| format!("hurried, seed-{seed}: {why}"))?;
        numbers.into_iter().for_each(|number| *counts.entry(number).or_insert(0) += 1);
    }
    let counts: Vec<String> = counts.iter().map(|(number, count)| format!("{number} {count} times")).collect();
    println!("On {HURRIED} drawn charts whose loops can be taken in no time all answer alike to check, count and");
    println!("show: {}.", counts.join(", "));
    Ok(())
}

/// The numbers that all answer to check, to count with near bounds, and to show of the last node at one state.
fn answers(seed: u64) -> Result<[u32; 3], String> {
    let hurried = |rule| Input { chart: drawn::hurried(seed), rule };
    // Every other rule has exact bounds.
    let rule = if seed % 2 == 0 { drawn::rule(seed) } else { exact::made_exact(drawn::rule(seed)) };
    let input = hurried(rule.clone());
    let checked = input.agree()?.number;
    let count = Count { input: hurried(counted::near(rule)) };
    let counted = count.agree(lent)?.number;
    if counted == 0 {
        count.accepted()?;
    }
    let [n, _, k] = input.sizes().map(usize::from);
    let show = Show { input, node: k - 1, state: seed as usize % n };
    Ok([checked, counted, show.agree(Lent::whole)?.outcome.number])
}
