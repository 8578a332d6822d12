//! Times per call over several batches.

use std::time::{Duration, Instant};

/// How many batches are taken, and how long one lasts at least. Of slow calls only as many are taken as `most` has room
/// for, but always one.
pub struct Plan {
    pub batches: usize,
    pub batch: Duration,
    pub most: Duration,
}

fn micros(time: Duration) -> f64 {
    time.as_secs_f64() * 1e6
}

impl Plan {
    fn batches_of(&self, batch: f64) -> usize {
        let room = (micros(self.most) / batch) as usize;
        self.batches.min(room).max(1)
    }
}

/// Microseconds per call.
pub struct Times {
    pub median: f64,
    pub best: f64,
}

/// The times of library and peer on the same input.
pub struct Pair {
    pub library: Times,
    pub peer: Times,
}

impl Pair {
    pub fn ratio(&self) -> f64 {
        self.library.median / self.peer.median
    }
}

/// The times of both calls, whose batches are taken in turn.
pub fn in_turn(plan: &Plan, library: impl FnMut(), peer: impl FnMut()) -> Pair {
    let [library, peer] = all_in_turn(plan, [&mut batches(library), &mut batches(peer)]);
    Pair { library, peer }
}

/// A batch of so many calls; answers the time per call.
pub fn batches(mut call: impl FnMut()) -> impl FnMut(u32) -> f64 {
    move |count| per_call(count, &mut call)
}

/// Batches taken in turn, so that a slower spell of the machine meets all; of the faster ones more are taken if another
/// is slow.
pub fn all_in_turn<const N: usize>(plan: &Plan, mut programs: [&mut dyn FnMut(u32) -> f64; N]) -> [Times; N] {
    let plans = programs.each_mut().map(|batch| warm_up(plan, batch));
    let mut times = [const { Vec::new() }; N];
    for turn in 0..plans.iter().map(|&(batches, _)| batches).max().unwrap_or(0) {
        for ((batch, times), &(batches, count)) in programs.iter_mut().zip(&mut times).zip(&plans) {
            if turn < batches {
                times.push(batch(count));
            }
        }
    }
    times.map(summary)
}

pub fn alone(plan: &Plan, call: impl FnMut()) -> Times {
    let [times] = all_in_turn(plan, [&mut batches(call)]);
    times
}

/// Calls until a batch lasts long enough; answers the batches to take and the calls in each.
fn warm_up(plan: &Plan, batch: &mut dyn FnMut(u32) -> f64) -> (usize, u32) {
    let mut count = 1;
    loop {
        let time = batch(count) * f64::from(count);
        if time >= micros(plan.batch) {
            return (plan.batches_of(time), count);
        }
        count *= 2;
    }
}

fn per_call(count: u32, call: &mut impl FnMut()) -> f64 {
    let start = Instant::now();
    for _ in 0..count {
        call();
    }
    micros(start.elapsed()) / f64::from(count)
}

fn summary(mut times: Vec<f64>) -> Times {
    times.sort_by(f64::total_cmp);
    Times { median: times[times.len() / 2], best: times[0] }
}
