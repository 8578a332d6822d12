//! The Markdown tables of count.

use crate::count::{Count, CountTimes};
use crate::input::Buffers;
use crate::timing::{alone, Plan};
use bench::counted::{self, GROWING, GROWTH};

pub fn count_tables(plan: &Plan) -> Result<(), String> {
    by_chart(plan)?;
    growth(plan)
}

fn by_chart(plan: &Plan) -> Result<(), String> {
    println!("## Count: 256 states, 2,048 arrows, 64 nodes with 31 untils; the rule's number is that of the minutes\n");
    println!("Beside it the library's check on the same chart and rule, median.\n");
    print!("| chart | rule | library median | library best | plain median | plain best | library / plain ");
    println!("| quick median | library / quick | check |");
    println!("|---|---|---:|---:|---:|---:|---:|---:|---:|---:|");
    for (chart, rule) in counted::rows() {
        let times = times(plan, chart, &rule)?;
        let (library, plain) = (&times.library, &times.plain);
        println!(
            "| {chart} | {rule} | {:.1} | {:.1} | {:.1} | {:.1} | {:.2} | {:.1} | {:.2} | {:.1} |",
            library.median,
            library.best,
            plain.median,
            plain.best,
            times.to_plain(),
            times.quick.median,
            times.to_quick(),
            check(plan, chart, &rule)?
        );
    }
    println!();
    Ok(())
}

fn times(plan: &Plan, chart: &str, rule: &str) -> Result<CountTimes, String> {
    Count::named(chart, rule)?.times(plan).map_err(|why| format!("count, {chart}, {rule}: {why}"))
}

/// The median of the library's check.
fn check(plan: &Plan, chart: &str, rule: &str) -> Result<f64, String> {
    let (count, mut buffers) = (Count::named(chart, rule)?, Buffers::new());
    let times = alone(plan, || {
        count.input.library(&mut buffers);
    });
    Ok(times.median)
}

fn growth(plan: &Plan) -> Result<(), String> {
    println!("## Growth of count with the minutes: rule mixed, median\n");
    println!("| chart | program |{}", GROWTH.map(|c| format!(" {c} |")).concat());
    println!("|---|---|{}", "---:|".repeat(GROWTH.len()));
    for chart in GROWING {
        let [mut library, mut plain, mut quick] = [const { String::new() }; 3];
        for c in GROWTH {
            let times = times(plan, chart, &counted::name("mixed", c))?;
            library += &format!(" {:.1} |", times.library.median);
            plain += &format!(" {:.1} |", times.plain.median);
            quick += &format!(" {:.1} |", times.quick.median);
        }
        println!("| {chart} | library |{library}\n| {chart} | plain |{plain}\n| {chart} | quick |{quick}");
    }
    println!();
    Ok(())
}
