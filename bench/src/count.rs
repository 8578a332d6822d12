//! One input of count, run on the library or on one of the two peers.

use crate::input::{Buffers, Input};
use crate::library_count;
use crate::timing::{all_in_turn, batches, Plan, Times};
use bench::peer::{self, Outcome};
use std::hint::black_box;

/// Rows of scratch that count asks for.
pub const ROWS: usize = 256;

/// As much as the largest input asks for.
pub fn lent() -> Buffers {
    Buffers::with_scratch(ROWS * 256 + 1)
}

pub struct Count {
    pub input: Input,
}

/// The library's count, or that of one of the peers.
type Way = fn(&[u8], &[u8], &mut [u8], &mut [u32]) -> Outcome;

const PEERS: [(&str, Way); 2] = [("plain", peer::plain_count), ("quick", peer::count)];

/// The times of the library and of both peers on the same input.
pub struct CountTimes {
    pub library: Times,
    pub plain: Times,
    pub quick: Times,
}

impl CountTimes {
    pub fn to_plain(&self) -> f64 {
        self.library.median / self.plain.median
    }

    pub fn to_quick(&self) -> f64 {
        self.library.median / self.quick.median
    }
}

impl Count {
    pub fn named(chart: &str, rule: &str) -> Result<Count, String> {
        Ok(Count { input: Input::named(chart, rule)? })
    }

    pub fn library(&self, lent: &mut Buffers) -> Outcome {
        self.call(library_count::count, lent)
    }

    pub fn plain(&self, lent: &mut Buffers) -> Outcome {
        self.call(peer::plain_count, lent)
    }

    pub fn quick(&self, lent: &mut Buffers) -> Outcome {
        self.call(peer::count, lent)
    }

    fn call(&self, count: Way, lent: &mut Buffers) -> Outcome {
        let (chart, rule) = (black_box(&self.input.chart), black_box(&self.input.rule));
        black_box(count(chart, rule, &mut lent.marks, &mut lent.scratch))
    }

    /// The times of all three; what isn't accepted with the peers' marks is not timed.
    pub fn times(&self, plan: &Plan) -> Result<CountTimes, String> {
        self.accepted()?;
        let mut lent = [lent(), lent(), lent()];
        let [ours, plain, quick] = lent.each_mut();
        let mut library = batches(|| {
            self.library(ours);
        });
        let mut plain = batches(|| {
            self.plain(plain);
        });
        let mut quick = batches(|| {
            self.quick(quick);
        });
        let [library, plain, quick] = all_in_turn(plan, [&mut library, &mut plain, &mut quick]);
        Ok(CountTimes { library, plain, quick })
    }

    /// All accept, with equal marks and scratch, and the marks are those of the library's check.
    pub fn accepted(&self) -> Result<(), String> {
        let outcome = self.agree(lent)?;
        if outcome != Outcome::ACCEPTED {
            return Err(format!("library and peers refuse: {outcome:?}"));
        }
        let (mut counted, mut checked) = (lent(), Buffers::new());
        self.quick(&mut counted);
        self.input.library(&mut checked);
        if counted.marks == checked.marks {
            Ok(())
        } else {
            Err("marks of count and check differ".to_string())
        }
    }

    /// What all answer, with equal marks and scratch.
    pub fn agree(&self, lend: impl Fn() -> Buffers) -> Result<Outcome, String> {
        let mut ours = lend();
        let outcome = self.library(&mut ours);
        for (name, count) in PEERS {
            let mut theirs = lend();
            let answer = self.call(count, &mut theirs);
            if outcome != answer {
                return Err(format!("outcomes of library and {name} peer: {outcome:?}, {answer:?}"));
            }
            ours.agree(&theirs).map_err(|why| format!("{name} peer: {why}"))?;
        }
        Ok(outcome)
    }
}
