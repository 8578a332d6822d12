//! The drawn charts on which the library takes longest, as ratio to the peer.

use crate::input::Input;
use crate::ratios::geometric_mean;
use crate::timing::Plan;
use std::time::Duration;

const SEEDS: u64 = 1_000;
const SHOWN: usize = 10;

/// The best of short batches is compared: there are too many charts for long ones.
const PLAN: Plan = Plan { batches: 7, batch: Duration::from_micros(50), most: Duration::from_millis(50) };

/// The least times of one seed's chart and rule, in microseconds.
struct Drawn {
    seed: u64,
    sizes: [u16; 3],
    library: f64,
    peer: f64,
}

impl Drawn {
    fn time(seed: u64) -> Result<Drawn, String> {
        let input = Input::drawn(seed);
        let times = input.times(&PLAN).map_err(|why| format!("seed-{seed}: {why}"))?;
        Ok(Drawn { seed, sizes: input.sizes(), library: times.library.best, peer: times.peer.best })
    }

    fn ratio(&self) -> f64 {
        self.library / self.peer
    }
}

pub fn table() -> Result<(), String> {
    let mut drawn: Vec<Drawn> = (0..SEEDS).map(Drawn::time).collect::<Result<_, _>>()?;
    drawn.sort_by(|a, b| b.ratio().total_cmp(&a.ratio()));
    println!("## Worst of {SEEDS} random charts with random rules, by ratio of the least times\n");
    println!("| chart | states | arrows | nodes | library best | peer best | library / peer |");
    println!("|---|---:|---:|---:|---:|---:|---:|");
    for one in &drawn[..SHOWN] {
        let [n, m, k] = one.sizes;
        println!("| seed-{} | {n} | {m} | {k} | {:.1} | {:.1} | {:.2} |", one.seed, one.library, one.peer, one.ratio());
    }
    let ratios: Vec<f64> = drawn.iter().map(Drawn::ratio).collect();
    let median = ratios[ratios.len() / 2];
    println!("\nOf all {SEEDS}: median {median:.2}, geometric mean {:.2}.\n", geometric_mean(&ratios));
    Ok(())
}
