//! Random files by number: those of pair i depend on the seed and i alone.

use oracle::{CHART_READ, RULE_READ};

use crate::cases::case::Case;
use crate::programs::asks;
use crate::programs::files::{Files, Pair, Stored};
use crate::programs::why::Why;
use crate::random::asked;
use crate::random::generate;
use crate::random::rng::Rng;
use crate::random::shows;

/// Of a length about what is read of a file; what it states then decides whether it is refused, and why.
fn lengthened(rng: &mut Rng, mut bytes: Vec<u8>, read: usize) -> Vec<u8> {
    let length = rng.pick(&[read - 1, read, read + 1, read + 90]);
    bytes.resize(length, 0);
    let stated = rng.pick(&[read - 1, read, read + 1, length]) as u32;
    if rng.percent(75) {
        bytes[1..5].copy_from_slice(&stated.to_be_bytes());
    }
    bytes
}

/// Mostly the bytes as they are.
fn stored(rng: &mut Rng, bytes: Vec<u8>, read: usize) -> Stored {
    match rng.below(50) {
        0 => Stored::Missing,
        1 => Stored::Folder,
        2 => Stored::Bytes(Vec::new()),
        3 | 4 => Stored::Bytes(lengthened(rng, bytes, read)),
        _ => Stored::Bytes(bytes),
    }
}

/// Those of a check, or those of a show with what is asked there.
fn made(rng: &mut Rng) -> (Vec<u8>, Vec<u8>, [usize; 2]) {
    let case = if rng.percent(50) { generate::check(rng) } else { shows::random(rng) };
    match case {
        Case::Check { chart, rule, .. } => {
            let asked = asked::random(rng, &chart, &rule);
            (chart, rule, asked)
        }
        Case::Show { chart, rule, node, state, .. } => (chart, rule, [node, state]),
        _ => panic!("a check or a show was asked for"),
    }
}

pub fn random(seed: u64, number: u64) -> Pair {
    let rng = &mut Rng::of_case(seed, number);
    let (chart, rule, [node, state]) = made(rng);
    let chart = stored(rng, chart, CHART_READ);
    let rule = stored(rng, rule, RULE_READ);
    let ask = asks::random(rng, [chart.read(CHART_READ).len(), rule.read(RULE_READ).len()]);
    let why = Why { node, state, written: None };
    Pair { name: format!("pair {number} of seed {seed}"), files: Files { chart, rule, ask }, why, written: None }
}

#[cfg(test)]
mod tests {
    use super::random;
    use crate::programs::files::{Files, Stored};

    fn files(seed: u64, number: u64) -> Files {
        random(seed, number).files
    }

    #[test]
    fn seed_and_number_give_the_same_files_again() {
        assert_eq!(files(3, 5), files(3, 5));
        assert_ne!(files(3, 5), files(3, 6));
        assert_ne!(files(3, 5), files(4, 5));
        assert_eq!(random(3, 5).why, random(3, 5).why);
    }

    /// Chart, rule and ask: which of them are ever as wanted?
    #[test]
    fn all_that_a_file_can_be() {
        let all: Vec<Files> = (0..2_000).map(|number| files(1, number)).collect();
        let some = |wanted: &dyn Fn(&Stored) -> bool| {
            let any = |of: fn(&Files) -> &Stored| all.iter().any(|files| wanted(of(files)));
            [any(|files| &files.chart), any(|files| &files.rule), any(|files| &files.ask)]
        };
        let longer = |limit: usize| move |x: &Stored| matches!(x, Stored::Bytes(bytes) if bytes.len() > limit);
        assert_eq!(some(&|x| *x == Stored::Missing), [true; 3]);
        assert_eq!(some(&|x| *x == Stored::Bytes(vec![])), [true; 3]);
        assert_eq!(some(&|x| *x == Stored::Folder), [true, true, false]);
        assert_eq!(some(&longer(16_906)), [true, false, false]);
        assert_eq!(some(&longer(520)), [true, true, false]);
        assert_eq!(some(&longer(5)), [true; 3]);
    }
}
