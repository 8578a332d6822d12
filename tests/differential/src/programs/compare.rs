//! Runs the built programs on the same files and texts, and compares all they print and write with the oracle's.

use std::fs;
use std::io;
use std::time::{Duration, Instant};

use crate::calls::report::say;
use crate::calls::run::SHOWN;
use crate::cases::last::Which;
use crate::programs::files::{Pair, PROGRAMS};
use crate::programs::limits;
use crate::programs::met::Met;
use crate::programs::pair_compare::{PairPrograms, Seen};
use crate::programs::pairs;
use crate::programs::typed::{Typed, RULE, TEXT};
use crate::programs::typed_compare::TypedPrograms;
use crate::programs::typed_limits;
use crate::programs::typed_met::TypedMet;
use crate::programs::typed_random;
use crate::programs::why::WHY;

const LIMIT: Duration = Duration::from_secs(20);

struct Programs {
    /// As it was given.
    folder: String,
    pairs: PairPrograms,
    typed: TypedPrograms,
}

/// One thing to run the programs on: files, or what is typed.
enum Trial {
    Files(Pair),
    Typed(Typed),
}

impl Programs {
    fn find(folder: &str) -> Result<Programs, String> {
        let whole = fs::canonicalize(folder).map_err(|why| format!("--programs {folder}: {why}"))?;
        let find = |name: &&str| {
            let path = whole.join(name);
            let there = path.is_file();
            there.then_some(path).ok_or(format!("there is no program {folder}/{name}: run tools/build first"))
        };
        let pairs = PairPrograms { paths: PROGRAMS.iter().map(find).collect::<Result<_, _>>()?, why: find(&WHY)? };
        let typed = TypedPrograms { rule: find(&RULE)?, text: find(&TEXT)? };
        Ok(Programs { folder: folder.into(), pairs, typed })
    }
}

struct Run {
    programs: Programs,
    met: Met,
    typed_met: TypedMet,
    pairs: u64,
    texts: u64,
    differ: u64,
}

impl Run {
    fn full(&self) -> bool {
        self.differ >= SHOWN
    }

    fn trial(&mut self, trial: &Trial, which: Which) -> io::Result<()> {
        let (name, differences) = match trial {
            Trial::Files(pair) => (&pair.name, self.pair(pair)?),
            Trial::Typed(typed) => (&typed.name, self.typed(typed)?),
        };
        for what in &differences {
            say(&format!("DIFFERENCE in {name}: {what}"));
        }
        if !differences.is_empty() {
            self.differ += 1;
            say(&format!("  tests/run --programs {} {which}", self.programs.folder));
        }
        Ok(())
    }

    fn pair(&mut self, pair: &Pair) -> io::Result<Vec<String>> {
        let texts = pair.files.texts();
        let Seen { differences, why } = self.programs.pairs.see(pair, &texts, LIMIT)?;
        self.pairs += 1;
        if pair.written.is_none() {
            self.met.add(&pair.files, &texts, &why);
        }
        Ok(differences)
    }

    fn typed(&mut self, typed: &Typed) -> io::Result<Vec<String>> {
        let done = typed.done();
        let differences = self.programs.typed.differences(typed, &done, LIMIT)?;
        self.texts += 1;
        if typed.written.is_none() {
            self.typed_met.add(typed, &done);
        }
        Ok(differences)
    }

    fn all(&mut self, seed: u64, count: u64, texts: u64) -> io::Result<()> {
        for (number, trial) in (0..).zip(&named()) {
            self.unless_full(trial, Which::Named(number))?;
        }
        for number in 0..count {
            let which = Which::Random { seed, number };
            self.unless_full(&Trial::Files(pairs::random(seed, number)), which)?;
        }
        for number in 0..texts {
            let which = Which::Text { seed, number };
            self.unless_full(&Trial::Typed(typed_random::random(seed, number)), which)?;
        }
        Ok(())
    }

    fn unless_full(&mut self, trial: &Trial, which: Which) -> io::Result<()> {
        if self.full() {
            return Ok(());
        }
        self.trial(trial, which)
    }

    fn said(&self) -> String {
        let pairs = if self.pairs == 1 { "pair" } else { "pairs" };
        let texts = if self.texts == 1 { "text" } else { "texts" };
        let differ = if self.differ == 1 { "differs" } else { "differ" };
        let what = format!("{} {pairs} of files, {} {texts}", self.pairs, self.texts);
        format!("programs: {what}, {} {differ}", self.differ)
    }
}

/// The files first, then what is typed.
fn named() -> Vec<Trial> {
    let files = limits::all().into_iter().map(Trial::Files);
    files.chain(typed_limits::all().into_iter().map(Trial::Typed)).collect()
}

fn start(folder: &str) -> Result<Run, String> {
    let (met, typed_met) = (Met::default(), TypedMet::default());
    Ok(Run { programs: Programs::find(folder)?, met, typed_met, pairs: 0, texts: 0, differ: 0 })
}

/// Runs the programs on all there is; true if nothing differs and the random ones led to all that they can.
pub fn all(folder: &str, seed: u64, count: u64, texts: u64) -> Result<bool, String> {
    let began = Instant::now();
    let mut run = start(folder)?;
    run.all(seed, count, texts).map_err(|why| format!("the files of a pair: {why}"))?;
    if run.full() {
        say(&format!("stopped after {SHOWN} differences"));
    }
    say(run.met.text().trim_end());
    say(run.typed_met.text().trim_end());
    let missing = [run.met.missing(), run.typed_met.missing()].concat();
    let missing = if run.differ == 0 { missing } else { Vec::new() };
    for what in &missing {
        say(&format!("NEVER MET: {what}"));
    }
    say(&format!("seed {seed}, {:.1} s", began.elapsed().as_secs_f64()));
    say(&run.said());
    Ok(run.differ == 0 && missing.is_empty())
}

fn trial(which: Which) -> Result<Trial, String> {
    match which {
        Which::Random { seed, number } => Ok(Trial::Files(pairs::random(seed, number))),
        Which::Text { seed, number } => Ok(Trial::Typed(typed_random::random(seed, number))),
        Which::Named(number) => {
            let (mut list, at) = (named(), usize::try_from(number).unwrap_or(usize::MAX));
            if at >= list.len() {
                return Err(format!("--named {number}: the last is {}", list.len() - 1));
            }
            Ok(list.swap_remove(at))
        }
        Which::Short(_) => Err("--short is not for the programs".into()),
    }
}

/// Runs the programs on the one of that number alone, and shows all that they are given and have to do.
pub fn one(folder: &str, which: Which) -> Result<bool, String> {
    let (mut run, trial) = (start(folder)?, trial(which)?);
    match &trial {
        Trial::Files(pair) => shown(pair),
        Trial::Typed(typed) => say(&format!("{}\n{typed}\n{}", typed.name, typed.done())),
    }
    run.trial(&trial, which).map_err(|why| format!("the files of the pair: {why}"))?;
    say(&run.said());
    Ok(run.differ == 0)
}

fn shown(pair: &Pair) {
    say(&format!("{}\n{}", pair.name, pair.files));
    for (name, text) in PROGRAMS.iter().zip(pair.files.texts()) {
        say(&format!("{name} has to print:\n{}", text.trim_end()));
    }
    let [node, state] = pair.why.arguments();
    say(&format!("{WHY} {node} {state} may print:\n{}", pair.why.example(&pair.files).trim_end()));
}
