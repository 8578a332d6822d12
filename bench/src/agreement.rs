//! Library and peer compared on every input of check, of show, of count, of exact bounds, and of read and write.

use crate::count::Count;
use crate::count_agreement::count_agreement;
use crate::hurried_agreement::hurried_agreement;
use crate::input::Input;
use crate::report::{GROWING, GROWTH};
use crate::show::{self, Lent, Show, POSITIONS};
use crate::text_agreement::text_agreement;
use bench::{exact, families, rules, shown, small};
use std::collections::BTreeMap;

/// As many of the drawn charts as take no notable time.
const DRAWN: u64 = 100;

pub fn agreement() -> Result<(), String> {
    let mut count = 0;
    for (chart, rule, n) in inputs() {
        let input = Input::sized(&chart, rule, n, 8 * n)?;
        input.accepted().map_err(|why| format!("{chart} with {n} states, {rule}: {why}"))?;
        count += 1;
    }
    println!("Library and peer give equal outcomes, marks and scratch on all {count} inputs.");
    show_agreement()?;
    count_agreement()?;
    exact_agreement()?;
    hurried_agreement()?;
    text_agreement()
}

/// Check and count of exact bounds, and of the same rules with the others.
fn exact_agreement() -> Result<(), String> {
    let rows = exact::rows();
    for row in &rows {
        for rule in [&row.exact, &row.most, &row.least] {
            let count = Count::named(row.chart, rule)?;
            let accepted = count.input.accepted().and_then(|()| count.accepted());
            accepted.map_err(|why| format!("{}, {rule}: {why}", row.chart))?;
        }
    }
    println!("On all {} inputs of exact bounds library and peers check and count to equal marks.", rows.len());
    Ok(())
}

fn show_agreement() -> Result<(), String> {
    for (chart, rule) in shown::ROWS {
        let (show, steps) = Show::named(chart, rule)?;
        let agreed = show.agree(Lent::whole).map_err(|why| format!("show, {chart}, {rule}: {why}"))?;
        if show::steps(agreed) != Some(steps) {
            return Err(format!("show, {chart}, {rule}: both answer {agreed:?}, not a run of {steps} steps"));
        }
    }
    let mut counts = BTreeMap::new();
    for (seed, drawn) in (0..DRAWN).flat_map(|seed| [(seed, Input::drawn as Drawn), (seed, Input::drawn_exact)]) {
        for show in asked_of(seed, drawn) {
            let agreed = show.agree(|| lent_for(&show));
            let what = || format!("show, seed-{seed}, node {}, state {}", show.node, show.state);
            *counts.entry(agreed.map_err(|why| format!("{}: {why}", what()))?.outcome.number).or_insert(0) += 1;
        }
    }
    let counts: Vec<String> = counts.iter().map(|(number, count)| format!("{number} {count} times")).collect();
    println!("They show runs of equal steps on all {} inputs of show. On drawn charts they", shown::ROWS.len());
    println!("answer alike: {}.", counts.join(", "));
    Ok(())
}

/// An input by its seed.
type Drawn = fn(u64) -> Input;

/// Every node of a drawn chart's rule, and one past the last, at about ten states, the first number past them included.
fn asked_of(seed: u64, drawn: Drawn) -> Vec<Show> {
    let [n, _, k] = drawn(seed).sizes().map(usize::from);
    let step = n.div_ceil(10);
    let mut asked = Vec::new();
    for node in 0..=k {
        let states = (node % step..=n).step_by(step).chain([n]);
        asked.extend(states.map(|state| Show { input: drawn(seed), node, state }));
    }
    asked
}

/// For most nodes enough; for some a number or a position too few.
fn lent_for(show: &Show) -> Lent {
    let scratch = POSITIONS * usize::from(show.input.sizes()[0]);
    match show.node % 6 {
        4 => Lent::new(scratch - 1, POSITIONS),
        5 => Lent::new(scratch + 1, show.state % 3),
        _ => Lent::new(scratch + 1, POSITIONS),
    }
}

/// Chart, rule and the states that a chart of no size of its own is to have.
fn inputs() -> Vec<(String, &'static str, usize)> {
    let mut inputs = Vec::new();
    for chart in families::NAMES.into_iter().flat_map(families::charts) {
        inputs.extend(rules::NAMES.map(|rule| (chart.clone(), rule, 256)));
    }
    for family in GROWING {
        inputs.extend(GROWTH.map(|n| (family.to_string(), "mixed", n)));
    }
    inputs.extend(small::ROWS.map(|(chart, rule)| (chart.to_string(), rule, 256)));
    for rule in ["seed", "seed-exact"] {
        inputs.extend((0..DRAWN).map(|seed| (format!("seed-{seed}"), rule, 256)));
    }
    inputs
}
