//! One input of check, run on the library or on the peer.

use crate::library_answer::outcome;
use crate::timing::{in_turn, Pair, Plan};
use bench::peer::Outcome;
use bench::{counted, drawn, exact, families, peer, rules, shown, small};
use std::hint::black_box;

pub struct Input {
    pub chart: Vec<u8>,
    pub rule: Vec<u8>,
}

/// The lent tables.
pub struct Buffers {
    pub marks: Vec<u8>,
    pub scratch: Vec<u32>,
}

impl Buffers {
    /// As large as the largest input of check asks for, one with an exact bound.
    pub fn new() -> Buffers {
        Buffers::with_scratch(256 * 256 + 1)
    }

    /// Filled with what neither program writes, so that kept content shows.
    pub fn with_scratch(numbers: usize) -> Buffers {
        Buffers { marks: vec![0xAA; 64 * 256 + 1], scratch: vec![0xAAAA_AAAA; numbers] }
    }

    /// Whether library and peer have left the same in theirs.
    pub fn agree(&self, peer: &Buffers) -> Result<(), String> {
        if self.marks != peer.marks {
            let byte = self.marks.iter().zip(&peer.marks).position(|(a, b)| a != b);
            return Err(format!("marks of library and peer differ at byte {}", byte.unwrap_or(0)));
        }
        if self.scratch != peer.scratch {
            return Err("scratch of library and peer differs".to_string());
        }
        Ok(())
    }
}

impl Input {
    /// The input of those names, at the size of the tables by family.
    pub fn named(chart: &str, rule: &str) -> Result<Input, String> {
        Input::sized(chart, rule, 256, 2048)
    }

    /// Small and drawn charts, and those of show and count, have their own size. The rule `seed` is that of the chart
    /// `seed-N`, and `seed-exact` the same with exact bounds.
    pub fn sized(chart: &str, rule: &str, n: usize, m: usize) -> Result<Input, String> {
        if let (Some(seed), "seed" | "seed-exact") = (chart.strip_prefix("seed-"), rule) {
            let seed = seed.parse().map_err(|_| format!("{seed} is not a seed"))?;
            return Ok(if rule == "seed" { Input::drawn(seed) } else { Input::drawn_exact(seed) });
        }
        if let Some(row) = shown::input(chart, rule) {
            return Ok(Input { chart: row.chart, rule: row.rule });
        }
        let own = small::chart(chart).or_else(|| counted::chart(chart));
        let bytes = own.or_else(|| families::chart(chart, n, m)).ok_or(format!("no chart {chart}"))?;
        let own = small::rule(rule).or_else(|| counted::rule(rule));
        let rule = own.or_else(|| rules::rule(rule)).ok_or(format!("no rule {rule}"))?;
        Ok(Input { chart: bytes, rule })
    }

    pub fn drawn(seed: u64) -> Input {
        Input { chart: drawn::chart(seed), rule: drawn::rule(seed) }
    }

    pub fn drawn_exact(seed: u64) -> Input {
        Input { chart: drawn::chart(seed), rule: exact::made_exact(drawn::rule(seed)) }
    }

    /// How many states, arrows and nodes it has.
    pub fn sizes(&self) -> [u16; 3] {
        let word = |bytes: &[u8], at: usize| u16::from_be_bytes([bytes[at], bytes[at + 1]]);
        [word(&self.chart, 5), word(&self.chart, 7), word(&self.rule, 5)]
    }

    /// The times of library and peer; an answer that isn't the peer's is not timed.
    pub fn times(&self, plan: &Plan) -> Result<Pair, String> {
        self.accepted()?;
        let (mut ours, mut theirs) = (Buffers::new(), Buffers::new());
        let library = || {
            self.library(&mut ours);
        };
        let peer = || {
            self.peer(&mut theirs);
        };
        Ok(in_turn(plan, library, peer))
    }

    pub fn library(&self, buffers: &mut Buffers) -> Outcome {
        let (chart, rule) = (black_box(&self.chart), black_box(&self.rule));
        black_box(outcome(doilystrand::check(chart, rule, &mut buffers.marks, &mut buffers.scratch)))
    }

    pub fn peer(&self, buffers: &mut Buffers) -> Outcome {
        let (chart, rule) = (black_box(&self.chart), black_box(&self.rule));
        black_box(peer::check(chart, rule, &mut buffers.marks, &mut buffers.scratch))
    }

    /// Both accept, with equal marks and equal scratch.
    pub fn accepted(&self) -> Result<(), String> {
        match self.agree()? {
            Outcome::ACCEPTED => Ok(()),
            refused => Err(format!("library and peer refuse: {refused:?}")),
        }
    }

    /// What both answer, with equal marks and scratch.
    pub fn agree(&self) -> Result<Outcome, String> {
        let (mut ours, mut theirs) = (Buffers::new(), Buffers::new());
        let (outcome, answer) = (self.library(&mut ours), self.peer(&mut theirs));
        if outcome != answer {
            return Err(format!("outcomes of library and peer: {outcome:?}, {answer:?}"));
        }
        ours.agree(&theirs)?;
        Ok(outcome)
    }
}
