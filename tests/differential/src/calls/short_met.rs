//! What all the short texts came to: accepted, or refused with 64 at each byte.

use crate::calls::compare::Answer;
use crate::calls::outcome::Outcome;
use crate::cases::short::COUNT;

/// Up to the length of the longest.
const PLACES: usize = 5;

#[derive(Default)]
pub struct ShortMet {
    texts: u64,
    accepted: u64,
    refused: [u64; PLACES],
}

impl ShortMet {
    pub fn add(&mut self, answer: &Answer) {
        self.texts += 1;
        match answer.outcome() {
            Some(Outcome::ACCEPTED) => self.accepted += 1,
            Some(Outcome { number: 64, place, entry: 3 }) => {
                self.refused.get_mut(place as usize).into_iter().for_each(|count| *count += 1)
            }
            _ => {}
        }
    }

    pub fn total(&self) -> u64 {
        self.texts
    }

    /// Whatever all of them have to come to, and to nothing else.
    pub fn missing(&self) -> Vec<String> {
        let mut missing = Vec::new();
        if self.texts != COUNT || self.accepted + self.refused.iter().sum::<u64>() != COUNT {
            missing.push(format!("all {COUNT} short texts accepted, or refused with 64 at one of their bytes"));
        }
        if self.accepted == 0 {
            missing.push("accepted short text".into());
        }
        let places = (0..PLACES).filter(|&place| self.refused[place] == 0);
        missing.extend(places.map(|place| format!("short text with 64 at {place}")));
        missing
    }

    pub fn text(&self) -> String {
        let places: Vec<String> =
            self.refused.iter().enumerate().map(|(place, count)| format!("{count} at {place}")).collect();
        let refused = format!("{} refused with 64 ({})", self.refused.iter().sum::<u64>(), places.join(", "));
        format!("all texts up to 4 bytes\n{:>12}  read, {} accepted, {refused}\n", self.texts, self.accepted)
    }
}

#[cfg(test)]
mod tests {
    use super::ShortMet;
    use crate::calls::compare::{oracle, Answer};
    use crate::calls::outcome::Outcome;
    use crate::cases::short::{case, COUNT};

    fn refused(number: u32, entry: u32) -> Answer {
        Answer::Turned { outcome: Outcome { number, place: 0, entry }, written: 0, output: vec![] }
    }

    #[test]
    fn all_are_to_come_to_something() {
        let mut met = ShortMet::default();
        assert_eq!(met.missing().len(), 7);
        (0..COUNT).for_each(|number| met.add(&oracle::run(&case(number))));
        assert!(met.missing().is_empty(), "{}", met.text());
        // true, and one or two digits behind up to two nots.
        assert_eq!(met.accepted, 1 + (10 + 6) + (10 + 6) + 10);
        met.add(&refused(64, 3));
        assert_eq!(met.missing().len(), 1);
    }

    #[test]
    fn another_number_or_entry_is_missed() {
        for (number, entry, missing) in [(64, 3, 0), (65, 3, 1), (64, 5, 1)] {
            let mut met = ShortMet { texts: COUNT - 1, accepted: 43, refused: [1, 1, 1, 1, COUNT - 48] };
            met.add(&refused(number, entry));
            assert_eq!(met.missing().len(), missing, "{number} {entry}");
        }
    }
}
