//! The Markdown tables of read and write.

use crate::timing::{Pair, Plan};
use crate::typing::Typing;
use bench::peer::Outcome;
use bench::texts;

pub fn text_tables(plan: &Plan) -> Result<(), String> {
    println!("## Read: texts of so many bytes, nanoseconds per call\n");
    table(plan, &texts::READS)?;
    println!("## Write: rules whose text has so many bytes, nanoseconds per call\n");
    table(plan, &texts::WRITES)
}

fn table(plan: &Plan, names: &[&str]) -> Result<(), String> {
    println!("| input | answer | library median | library best | peer median | peer best | library / peer |");
    println!("|---|---|---:|---:|---:|---:|---:|");
    for name in names {
        let (typing, Outcome { number, place, .. }) = Typing::named(name)?;
        let times = typing.times(plan).map_err(|why| format!("{name}: {why}"))?;
        println!("| {name} | {number} at {place} | {} |", cells(&times));
    }
    println!();
    Ok(())
}

/// Times are kept in microseconds.
fn cells(times: &Pair) -> String {
    let (library, peer) = (&times.library, &times.peer);
    let nanos = [library.median, library.best, peer.median, peer.best].map(|micros| format!("{:.0}", micros * 1000.0));
    format!("{} | {:.2}", nanos.join(" | "), times.ratio())
}
