//! The Markdown tables of the benchmark.

use crate::agreement::agreement;
use crate::count_agreement::count_agreement;
use crate::count_tables::count_tables;
use crate::exact_tables::exact_table;
use crate::input::Input;
use crate::ratios::worst_chart;
use crate::show::Show;
use crate::text_agreement::text_agreement;
use crate::text_tables::text_tables;
use crate::timing::{alone, Pair, Plan};
use crate::worst;
use bench::{families, maps, rules, shown};
use std::hint::black_box;

pub const GROWTH: [usize; 5] = [16, 32, 64, 128, 256];
pub const GROWING: [&str; 5] = ["random", "chain", "chain-loop", "zigzag", "hidden"];

pub fn all(plan: &Plan) -> Result<(), String> {
    agreement()?;
    how(plan);
    by_family(plan)?;
    growth(plan)?;
    worst::table()?;
    shown_runs(plan)?;
    count_tables(plan)?;
    exact_table(plan)?;
    text_tables(plan)?;
    map_checks(plan)
}

/// The tables of count alone.
pub fn count(plan: &Plan) -> Result<(), String> {
    count_agreement()?;
    how(plan);
    count_tables(plan)
}

/// The table of exact bounds alone.
pub fn exact(plan: &Plan) -> Result<(), String> {
    how(plan);
    exact_table(plan)
}

/// The tables of read and write alone.
pub fn text(plan: &Plan) -> Result<(), String> {
    text_agreement()?;
    how(plan);
    text_tables(plan)
}

fn how(plan: &Plan) {
    println!("\nTimes in microseconds per call; {} batches of each program, fewer for slow inputs,", plan.batches);
    println!("taken in turn in one run after a warm-up. Marks and scratch are not cleared between calls; check clears");
    println!("its scratch itself. Read and write, which are short, in nanoseconds.\n");
}

fn row(name: &str, times: &Pair) {
    let (library, peer) = (&times.library, &times.peer);
    println!(
        "| {name} | {:.1} | {:.1} | {:.1} | {:.1} | {:.2} |",
        library.median,
        library.best,
        peer.median,
        peer.best,
        times.ratio()
    );
}

fn by_family(plan: &Plan) -> Result<(), String> {
    println!("## Check: 2,048 arrows, 64 nodes with 31 untils, 256 states (dense: 45)\n");
    println!(
        "Of hidden, layers, skips and retry, of which there are three charts each, the one of the greatest ratio.\n"
    );
    println!("| chart | rule | library median | library best | peer median | peer best | library / peer |");
    println!("|---|---|---:|---:|---:|---:|---:|");
    for family in families::NAMES {
        for rule in rules::NAMES {
            row(&format!("{family} | {rule}"), &worst_chart(plan, family, rule)?);
        }
    }
    println!();
    Ok(())
}

fn growth(plan: &Plan) -> Result<(), String> {
    println!("## Growth: n states, 8n arrows, rule mixed\n");
    println!("| chart | n | library median | library best | peer median | peer best | library / peer |");
    println!("|---|---:|---:|---:|---:|---:|---:|");
    for family in GROWING {
        for n in GROWTH {
            let input = Input::sized(family, "mixed", n, 8 * n)?;
            row(&format!("{family} | {n}"), &input.times(plan)?);
        }
    }
    println!();
    Ok(())
}

fn shown_runs(plan: &Plan) -> Result<(), String> {
    println!("## Show: 256 states, 2,048 arrows, one until; the rule's number is that of the steps\n");
    println!("Beside it check alone on the same chart and rule, median of the library and of the peer.\n");
    print!("| chart | rule | library median | library best | peer median | peer best | library / peer ");
    println!("| check, library | check, peer |");
    println!("|---|---|---:|---:|---:|---:|---:|---:|---:|");
    for (chart, rule) in shown::ROWS {
        let (show, _) = Show::named(chart, rule)?;
        let times = show.times(plan).map_err(|why| format!("show, {chart}, {rule}: {why}"))?;
        let check = show.input.times(plan).map_err(|why| format!("{chart}, {rule}: {why}"))?;
        let (library, peer) = (&times.library, &times.peer);
        println!(
            "| {chart} | {rule} | {:.1} | {:.1} | {:.1} | {:.1} | {:.2} | {:.1} | {:.1} |",
            library.median,
            library.best,
            peer.median,
            peer.best,
            times.ratio(),
            check.library.median,
            check.peer.median
        );
    }
    println!();
    Ok(())
}

fn map_checks(plan: &Plan) -> Result<(), String> {
    println!("## Map check: 256 detail states, 2,048 arrows in each chart, library alone\n");
    println!("| input | median | best |");
    println!("|---|---:|---:|");
    for name in maps::NAMES {
        let input = maps::input(name).ok_or(format!("no map input {name}"))?;
        let call = || doilystrand::map_check(black_box(&input.detail), &input.overview, &input.map);
        let outcome = call();
        if !outcome.is_accepted() {
            return Err(format!("map check on {name}: {outcome}"));
        }
        let times = alone(plan, || {
            let _ = black_box(call());
        });
        println!("| {name} | {:.1} | {:.1} |", times.median, times.best);
    }
    Ok(())
}
