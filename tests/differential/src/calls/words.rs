//! The library's words for an outcome, held to what was met: each number is told, and none besides.

use std::collections::BTreeSet;

use crate::calls::outcome::Outcome;

/// The papers by their entries.
const PAPERS: [&str; 6] = ["none", "chart or detail", "overview", "rule", "map", "a buffer"];

/// No number of the papers is as high.
const HIGHEST: u32 = 300;

pub struct Words {
    pub sentence: String,
    pub paper: String,
    /// What the place counts; empty where the place is always 0.
    pub counts: String,
}

impl Words {
    pub fn of(Outcome { number, place, entry }: Outcome) -> Words {
        let words = doilystrand::Outcome { number, place, entry }.words();
        let [sentence, paper, counts] = [words.sentence(), words.paper(), words.counts()].map(String::from);
        Words { sentence, paper, counts }
    }
}

/// What is wrong with the words for an outcome that was met, its place being the highest that was.
fn wrong(met: Outcome, words: &Words) -> Vec<String> {
    let Words { sentence, paper, counts } = words;
    let mut wrong = Vec::new();
    if met.number != 0 && sentence.is_empty() {
        wrong.push(format!("number {} was met and has no sentence", met.number));
    }
    if PAPERS.get(met.entry as usize) != Some(&paper.as_str()) {
        wrong.push(format!("number {} with entry {}: the paper is {paper:?}", met.number, met.entry));
    }
    if counts.is_empty() != (met.place == 0) {
        wrong.push(format!("number {}: places up to {} were met, which count {counts:?}", met.number, met.place));
    }
    wrong
}

/// What was met, each pair of number and entry once, beside the words: how many numbers there are, or what is wrong.
pub fn compare(met: &[Outcome], words: impl Fn(Outcome) -> Words) -> Result<usize, Vec<String>> {
    let mut all: Vec<String> = met.iter().flat_map(|&outcome| wrong(outcome, &words(outcome))).collect();
    let numbers: BTreeSet<u32> = met.iter().map(|outcome| outcome.number).collect();
    let told = |&number: &u32| !words(Outcome { number, place: 0, entry: 0 }).sentence.is_empty();
    let unmet = (0..=HIGHEST).filter(|number| !numbers.contains(number)).filter(told);
    all.extend(unmet.map(|number| format!("number {number} has a sentence and was never met")));
    let refusals = numbers.iter().filter(|&&number| number != 0).count();
    if all.is_empty() {
        Ok(refusals)
    } else {
        Err(all)
    }
}

#[cfg(test)]
mod tests {
    use super::{compare, Outcome, Words, PAPERS};

    const MET: [Outcome; 4] = [
        Outcome::ACCEPTED,
        Outcome { number: 9, place: 4, entry: 1 },
        Outcome { number: 9, place: 1, entry: 2 },
        Outcome { number: 18, place: 0, entry: 5 },
    ];

    /// Of a library that has sentences for these numbers, and a place for one.
    fn told(numbers: &'static [u32], placed: u32) -> impl Fn(Outcome) -> Words {
        move |Outcome { number, entry, .. }| {
            let sentence = if numbers.contains(&number) { "a sentence" } else { "" };
            let paper = PAPERS[entry as usize];
            let counts = if number == placed { "state" } else { "" };
            Words { sentence: sentence.into(), paper: paper.into(), counts: counts.into() }
        }
    }

    #[test]
    fn none_missing_and_none_left_over() {
        assert_eq!(compare(&MET, told(&[9, 18], 9)), Ok(2));
        let wrong = |numbers, placed| compare(&MET, told(numbers, placed)).unwrap_err();
        assert_eq!(wrong(&[9], 9), ["number 18 was met and has no sentence"]);
        assert_eq!(wrong(&[9, 18, 99], 9), ["number 99 has a sentence and was never met"]);
        assert_eq!(wrong(&[9, 18], 18).len(), 3);
    }

    #[test]
    fn the_paper_is_the_entry_s() {
        let words = |outcome: Outcome| told(&[9, 18], 9)(Outcome { entry: outcome.entry.min(1), ..outcome });
        let said = [(9, 2), (18, 5)]
            .map(|(number, entry)| format!("number {number} with entry {entry}: the paper is \"chart or detail\""));
        assert_eq!(compare(&MET, words), Err(said.to_vec()));
    }
}
