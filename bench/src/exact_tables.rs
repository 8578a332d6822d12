//! The Markdown table of exact bounds: the library's check of them beside its count of the same rule with "at most" and
//! with "at least".

use crate::count::{self, Count};
use crate::ratios::geometric_mean;
use crate::timing::{all_in_turn, batches, Plan, Times};
use bench::exact::{self, Row};

/// Times on one chart, all taken in turn.
pub struct ExactTimes {
    check: Times,
    peer: Times,
    /// Count of the exact rule, and of those with "at most" and "at least".
    count: Times,
    most: Times,
    least: Times,
}

impl ExactTimes {
    pub fn to_most(&self) -> f64 {
        self.check.median / self.most.median
    }

    fn to_least(&self) -> f64 {
        self.check.median / self.least.median
    }

    fn to_peer(&self) -> f64 {
        self.check.median / self.peer.median
    }
}

/// What isn't accepted with the peers' marks is not timed.
pub fn times(plan: &Plan, row: &Row) -> Result<ExactTimes, String> {
    let [exact, most, least] = accepted(row).map_err(|why| format!("{}, {}: {why}", row.chart, row.exact))?;
    let mut lent = [(); 5].map(|()| count::lent());
    let [checked, theirs, counted, counted_most, counted_least] = lent.each_mut();
    let mut check = batches(|| {
        exact.input.library(checked);
    });
    let mut peer = batches(|| {
        exact.input.peer(theirs);
    });
    let mut count = batches(|| {
        exact.library(counted);
    });
    let mut most = batches(|| {
        most.library(counted_most);
    });
    let mut least = batches(|| {
        least.library(counted_least);
    });
    let [check, peer, count, most, least] =
        all_in_turn(plan, [&mut check, &mut peer, &mut count, &mut most, &mut least]);
    Ok(ExactTimes { check, peer, count, most, least })
}

/// The inputs of a row: exactly, at most and at least.
fn accepted(row: &Row) -> Result<[Count; 3], String> {
    let named = |rule: &str| {
        let count = Count::named(row.chart, rule)?;
        count.input.accepted()?;
        count.accepted().map(|()| count)
    };
    Ok([named(&row.exact)?, named(&row.most)?, named(&row.least)?])
}

pub fn exact_table(plan: &Plan) -> Result<(), String> {
    println!("## Exact bounds: 256 states, 2,048 arrows, 64 nodes with 31 untils of exactly 255\n");
    println!("Check of the rule, beside the peer's; then count of it, and of the same rule with other bounds.\n");
    print!("| chart | rule | check median | check best | peer median | check / peer | count median ");
    println!("| count, at most | check / count, at most | count, at least | check / count, at least |");
    println!("|---|---|---:|---:|---:|---:|---:|---:|---:|---:|---:|");
    let (mut to_most, mut to_least) = (Vec::new(), Vec::new());
    for row in exact::rows() {
        let times = times(plan, &row)?;
        println!("| {} | {} | {} |", row.chart, row.exact, cells(&times));
        to_most.push(times.to_most());
        to_least.push(times.to_least());
    }
    println!("\n{}\n{}\n", summary("at most", &to_most), summary("at least", &to_least));
    Ok(())
}

fn cells(times: &ExactTimes) -> String {
    let ExactTimes { check, peer, count, most, least } = times;
    let checked = format!("{:.1} | {:.1} | {:.1} | {:.2}", check.median, check.best, peer.median, times.to_peer());
    let most = format!("{:.1} | {:.1} | {:.2}", count.median, most.median, times.to_most());
    format!("{checked} | {most} | {:.1} | {:.2}", least.median, times.to_least())
}

fn summary(bound: &str, ratios: &[f64]) -> String {
    let greatest = ratios.iter().copied().fold(0.0, f64::max);
    format!("To count with \"{bound}\": geometric mean {:.2}, greatest {greatest:.2}.", geometric_mean(ratios))
}
