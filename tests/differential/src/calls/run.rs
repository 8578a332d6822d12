//! The run: named cases first, then random ones, then rules typed as text; or one case alone.

use std::time::Instant;

use crate::calls::compare::{both, Answer, Both};
use crate::calls::count_as_check;
use crate::calls::promises;
use crate::calls::report::{self, say};
use crate::calls::show_judge;
use crate::calls::summary::{Source, Summary};
use crate::calls::there_and_back;
use crate::calls::words::{self, Words};
use crate::cases::case::Case;
use crate::cases::last::{Last, Which};
use crate::cases::short;
use crate::named::charts;
use crate::named::counts;
use crate::named::exact_marks;
use crate::named::exact_rows;
use crate::named::exact_shows;
use crate::named::expected::Named;
use crate::named::items;
use crate::named::large;
use crate::named::maps;
use crate::named::minutes;
use crate::named::passing;
use crate::named::rules;
use crate::named::shows;
use crate::named::texts;
use crate::named::timelocks;
use crate::named::typed_limits;
use crate::named::written;
use crate::random::generate;
use crate::random::typed;

/// The run stops after so many differences.
pub const SHOWN: u64 = 5;

/// All but the large ones.
pub fn named_but_large() -> Vec<Named> {
    let mut list = Vec::new();
    items::all(&mut list);
    charts::all(&mut list);
    timelocks::all(&mut list);
    rules::all(&mut list);
    maps::all(&mut list);
    shows::all(&mut list);
    counts::all(&mut list);
    minutes::all(&mut list);
    passing::all(&mut list);
    exact_marks::all(&mut list);
    exact_rows::all(&mut list);
    exact_shows::all(&mut list);
    texts::all(&mut list);
    typed_limits::all(&mut list);
    written::all(&mut list);
    list
}

/// The large ones come last, since they take longest.
fn named() -> Vec<Named> {
    let mut list = named_but_large();
    large::all(&mut list);
    list
}

/// What is wrong with a case's answers, if anything is.
fn difference(case: &Case, answers: &Both) -> Option<String> {
    if !answers.agree() {
        return Some("the answers differ".into());
    }
    let sides = [("the library", &answers.library), ("the oracle", &answers.oracle)];
    let broken = |(name, answer): &(&str, &Answer)| Some(format!("{name}: {}", promises::broken(case, answer)?));
    sides.iter().find_map(broken).or_else(|| Some(format!("the library: {}", judged(case, &answers.library)?)))
}

/// What is wrong with the library's answer by a judge, or by the library's other calls.
fn judged(case: &Case, answer: &Answer) -> Option<String> {
    show_judge::wrong(case, answer)
        .or_else(|| count_as_check::wrong(case, answer))
        .or_else(|| there_and_back::wrong(case, answer))
}

fn against_paper(case: &Named, answers: &Both) -> Option<String> {
    let sides = [("the library", &answers.library), ("the oracle", &answers.oracle)];
    let wrong = sides.iter().find(|(_, answer)| !case.met(answer))?;
    Some(format!("{} differs from the paper, which says {:?}", wrong.0, case.expected))
}

struct Run {
    summary: Summary,
    differ: u64,
    last: Last,
}

impl Run {
    fn full(&self) -> bool {
        self.differ >= SHOWN
    }

    fn note(&mut self, name: impl Fn() -> String, case: &Case, answers: &Both, what: Option<String>) {
        if let Some(what) = what {
            self.differ += 1;
            report::difference(&name(), case, answers, &what);
        }
    }

    fn named_cases(&mut self) {
        for (number, test) in (0..).zip(&named()) {
            if self.full() {
                return;
            }
            self.last.keep(Which::Named(number));
            let answers = both(&test.case);
            let what = difference(&test.case, &answers).or_else(|| against_paper(test, &answers));
            self.summary.add(&test.case, &answers.oracle, Source::Named);
            self.note(|| format!("named case {number}, {}", test.name), &test.case, &answers, what);
        }
    }

    fn random_cases(&mut self, seed: u64, count: u64) {
        for number in 0..count {
            if self.full() {
                return;
            }
            let (case, name) = (generate::random(seed, number), || format!("case {number} of seed {seed}"));
            let answers = self.compared(&case, Which::Random { seed, number }, name);
            self.summary.add(&case, &answers.oracle, Source::Random);
        }
    }

    fn typed_rules(&mut self, seed: u64, count: u64) {
        for number in 0..count {
            if self.full() {
                return;
            }
            let (case, name) = (typed::random(seed, number), || format!("text {number} of seed {seed}"));
            let answers = self.compared(&case, Which::Text { seed, number }, name);
            self.summary.add(&case, &answers.oracle, Source::Typed);
        }
    }

    fn short_texts(&mut self) {
        for number in 0..short::COUNT {
            if self.full() {
                return;
            }
            let answers = self.compared(&short::case(number), Which::Short(number), || format!("short text {number}"));
            self.summary.short.add(&answers.oracle);
        }
    }

    /// Both answers, after what differs is noted.
    fn compared(&mut self, case: &Case, which: Which, name: impl Fn() -> String) -> Both {
        self.last.keep(which);
        let answers = both(case);
        let what = difference(case, &answers);
        self.note(name, case, &answers, what);
        answers
    }
}

/// All that is wrong with what was met, where nothing differs.
fn shortfalls(summary: &Summary) -> Vec<String> {
    let missing = summary.missing().into_iter().map(|what| format!("NEVER MET: {what}"));
    let strange = summary.numbers.strange().into_iter().map(|what| format!("NOT OF THE PAPERS: {what}"));
    let words = words::compare(&summary.numbers.met(), Words::of);
    if let Ok(numbers) = &words {
        say(&format!("words: {numbers} numbers, each met and each told"));
    }
    let words = words.err().into_iter().flatten().map(|what| format!("WORDS: {what}"));
    missing.chain(strange).chain(words).collect()
}

/// Runs all cases; true if none differs, and every number was met and is told in words.
pub fn all(last: Last, seed: u64, count: u64, texts: u64) -> bool {
    let began = Instant::now();
    let mut run = Run { summary: Summary::new(), differ: 0, last };
    run.named_cases();
    run.random_cases(seed, count);
    run.typed_rules(seed, texts);
    run.short_texts();
    if run.full() {
        say(&format!("stopped after {SHOWN} differences"));
    }
    say(run.summary.text().trim_end());
    let shortfalls = if run.differ == 0 { shortfalls(&run.summary) } else { Vec::new() };
    shortfalls.iter().for_each(|what| say(what));
    say(&format!("seed {seed}, {:.1} s", began.elapsed().as_secs_f64()));
    say(&format!("differential: {} cases, {} differ", run.summary.total(), run.differ));
    run.differ == 0 && shortfalls.is_empty()
}

/// Runs the case of that number alone.
pub fn one(mut last: Last, which: Which) -> Result<bool, String> {
    let case = match which {
        Which::Random { seed, number } => generate::random(seed, number),
        Which::Text { seed, number } => typed::random(seed, number),
        Which::Short(number) => short::case(number),
        Which::Named(number) => {
            let (list, at) = (named(), usize::try_from(number).unwrap_or(usize::MAX));
            let test = list.get(at).ok_or(format!("--named {number}: the last is {}", list.len() - 1))?;
            say(&test.name);
            test.case.clone()
        }
    };
    last.keep(which);
    Ok(alone(&case))
}

/// Runs one case and prints both answers in full. If it is among the named ones, it is held to their answers too.
pub fn alone(case: &Case) -> bool {
    let answers = both(case);
    let as_named = || named().iter().filter(|test| test.case == *case).find_map(|test| against_paper(test, &answers));
    let what = difference(case, &answers).or_else(as_named);
    report::whole(case, &answers, what.as_deref());
    what.is_none()
}
