//! The command line.

use crate::cases::case::Case;
use crate::cases::last::Which;
use crate::cases::replay;

pub const USAGE: &str = "usage: differential [--seed S] [--long [COUNT]]
       differential [--seed S] --case I | --text I
       differential --named I | --short I
       differential --replay CASE
       differential --programs DIR [--seed S] [--long [COUNT]]
       differential --programs DIR [--seed S] --case I | --text I
       differential --programs DIR --named I";

const SEED: u64 = 20_011_115;

/// How many random ones: cases of the library, rules typed as text for it, then pairs of files for the programs, and
/// texts for them.
#[derive(Clone, Copy)]
struct Counts {
    usual: u64,
    long: u64,
}

const CASES: Counts = Counts { usual: 430_000, long: 5_000_000 };
const TEXTS: Counts = Counts { usual: 300_000, long: 5_000_000 };
const PAIRS: Counts = Counts { usual: 300, long: 10_000 };
const PAIR_TEXTS: Counts = Counts { usual: 100, long: 3_000 };

#[derive(Debug, PartialEq, Eq)]
pub enum Task {
    Run { seed: u64, count: u64, texts: u64 },
    One(Which),
    Replay(Case),
    Programs { folder: String, seed: u64, count: u64, texts: u64 },
    Pair { folder: String, which: Which },
}

/// One case, given the seed and its number.
type Asked = fn(u64, u64) -> Which;

#[derive(Default)]
struct Given {
    seed: Option<u64>,
    one: Option<(Asked, u64)>,
    long: bool,
    count: Option<u64>,
    folder: Option<String>,
}

impl Given {
    fn task(self) -> Task {
        let seed = self.seed.unwrap_or(SEED);
        let which = self.one.map(|(asked, number)| asked(seed, number));
        let count = |of: Counts| self.count.unwrap_or(if self.long { of.long } else { of.usual });
        match (self.folder, which) {
            (None, None) => Task::Run { seed, count: count(CASES), texts: count(TEXTS) },
            (None, Some(which)) => Task::One(which),
            (Some(folder), None) => Task::Programs { folder, seed, count: count(PAIRS), texts: count(PAIR_TEXTS) },
            (Some(folder), Some(which)) => Task::Pair { folder, which },
        }
    }
}

/// The options that ask for one case by its number.
fn asked(option: &str) -> Option<Asked> {
    match option {
        "--named" => Some(|_, number| Which::Named(number)),
        "--case" => Some(|seed, number| Which::Random { seed, number }),
        "--text" => Some(|seed, number| Which::Text { seed, number }),
        "--short" => Some(|_, number| Which::Short(number)),
        _ => None,
    }
}

fn number(text: Option<&String>, option: &str) -> Result<u64, String> {
    let text = text.ok_or(format!("{option} needs a number"))?;
    text.replace([',', '_'], "").parse().map_err(|_| format!("{option} {text}: not a number"))
}

pub fn read(arguments: &[String]) -> Result<Task, String> {
    let mut given = Given::default();
    let mut rest = arguments.iter().peekable();
    while let Some(option) = rest.next() {
        match option.as_str() {
            "--seed" => given.seed = Some(number(rest.next(), option)?),
            "--programs" => given.folder = Some(rest.next().ok_or("--programs needs a folder")?.clone()),
            "--long" => {
                given.long = true;
                let count = rest.next_if(|next| !next.starts_with("--"));
                given.count = count.map(|count| number(Some(count), option)).transpose()?;
            }
            "--replay" => {
                // The line may come as one argument or as its words.
                let words: Vec<&str> = rest.map(String::as_str).collect();
                return replay::parse(&words.join(" ")).map(Task::Replay);
            }
            other => {
                let asked = asked(other).ok_or(format!("unknown option {other}"))?;
                given.one = Some((asked, number(rest.next(), option)?));
            }
        }
    }
    Ok(given.task())
}

#[cfg(test)]
mod tests {
    use super::{read, Task, SEED};
    use crate::cases::last::Which;

    fn task(line: &str) -> Result<Task, String> {
        read(&line.split_whitespace().map(String::from).collect::<Vec<_>>())
    }

    #[test]
    fn the_library() {
        assert_eq!(task(""), Ok(Task::Run { seed: SEED, count: 430_000, texts: 300_000 }));
        assert_eq!(task("--long"), Ok(Task::Run { seed: SEED, count: 5_000_000, texts: 5_000_000 }));
        assert_eq!(task("--long 1,000 --seed 3"), Ok(Task::Run { seed: 3, count: 1_000, texts: 1_000 }));
        assert_eq!(task("--case 7 --seed 3"), Ok(Task::One(Which::Random { seed: 3, number: 7 })));
        assert_eq!(task("--seed 3 --text 7"), Ok(Task::One(Which::Text { seed: 3, number: 7 })));
        assert_eq!(task("--short 7"), Ok(Task::One(Which::Short(7))));
        assert_eq!(task("--named 7"), Ok(Task::One(Which::Named(7))));
    }

    #[test]
    fn the_programs() {
        let folder = || "here".to_string();
        let usual = Task::Programs { folder: folder(), seed: SEED, count: 300, texts: 100 };
        assert_eq!(task("--programs here"), Ok(usual));
        let long = task("--seed 3 --programs here --long");
        assert_eq!(long, Ok(Task::Programs { folder: folder(), seed: 3, count: 10_000, texts: 3_000 }));
        let which = Which::Random { seed: SEED, number: 7 };
        assert_eq!(task("--programs here --case 7"), Ok(Task::Pair { folder: folder(), which }));
        let which = Which::Named(7);
        assert_eq!(task("--named 7 --programs here"), Ok(Task::Pair { folder: folder(), which }));
    }

    #[test]
    fn other_options_are_refused() {
        for line in ["--seed", "--case x", "--text", "--short -1", "--long x", "--programs", "here", "--replay kind"] {
            assert!(task(line).is_err(), "{line}");
        }
    }
}
