//! What the random texts led to.

use crate::programs::files::Stored;
use crate::programs::typed::{Done, Typed};

const KINDS: [&str; 9] = [
    "rules written, no file before",
    "rules written over a longer file",
    "rules written over a shorter file",
    "texts refused with 64, no file before",
    "texts refused with 64, a file kept",
    "texts refused with 65",
    "rules told",
    "rules refused with 10",
    "rules refused with another number",
];

#[derive(Default)]
pub struct TypedMet([u64; KINDS.len()]);

fn of_typed(typed: &Typed, done: &Done) -> Option<usize> {
    let printed = done.printed.as_ref()?;
    match (&typed.before, &done.file) {
        _ if printed.starts_with(b"refused 65 ") => Some(5),
        (Stored::Missing, _) if printed.starts_with(b"refused 64 ") => Some(3),
        _ if printed.starts_with(b"refused 64 ") => Some(4),
        (Stored::Bytes(before), Stored::Bytes(file)) => Some(if before.len() > file.len() { 1 } else { 2 }),
        _ => Some(0),
    }
}

fn of_told(told: &[u8]) -> usize {
    match told {
        _ if told.starts_with(b"refused 10 ") => 7,
        _ if told.starts_with(b"refused ") => 8,
        _ => 6,
    }
}

impl TypedMet {
    pub fn add(&mut self, typed: &Typed, done: &Done) {
        for kind in of_typed(typed, done).into_iter().chain([of_told(&done.told)]) {
            self.0[kind] += 1;
        }
    }

    /// What no text led to.
    pub fn missing(&self) -> Vec<&'static str> {
        KINDS.into_iter().zip(self.0).filter(|(_, count)| *count == 0).map(|(kind, _)| kind).collect()
    }

    pub fn text(&self) -> String {
        KINDS.iter().zip(self.0).map(|(kind, count)| format!("{count:>8} {kind}\n")).collect()
    }
}

#[cfg(test)]
mod tests {
    use super::TypedMet;
    use crate::programs::files::Stored;
    use crate::programs::typed::Typed;
    use crate::programs::typed_random;

    fn met(before: Stored, text: &str) -> Vec<&'static str> {
        let typed = Typed { name: "".into(), before, pieces: Some(vec![text.into()]), written: None };
        let mut met = TypedMet::default();
        let all = met.missing();
        met.add(&typed, &typed.done());
        let missing = met.missing();
        all.into_iter().filter(|kind| !missing.contains(kind)).collect()
    }

    #[test]
    fn each_text_counts_for_its_kinds() {
        let file = |length| Stored::Bytes(vec![1; length]);
        assert_eq!(met(Stored::Missing, "true\n"), ["rules written, no file before", "rules told"]);
        assert_eq!(met(file(99), "true\n"), ["rules written over a longer file", "rules told"]);
        assert_eq!(met(file(9), "true\n"), ["rules written over a shorter file", "rules told"]);
        assert_eq!(met(Stored::Missing, ""), ["texts refused with 64, no file before", "rules refused with 10"]);
        assert_eq!(met(file(9), ""), ["texts refused with 64, a file kept", "rules refused with another number"]);
        assert_eq!(met(file(2), &"!".repeat(5_000)), ["texts refused with 65", "rules refused with 10"]);
    }

    #[test]
    fn a_hundred_texts_lead_to_all() {
        let mut met = TypedMet::default();
        for number in 0..100 {
            let typed = typed_random::random(20_011_115, number);
            met.add(&typed, &typed.done());
        }
        assert!(met.missing().is_empty(), "{}", met.text());
    }
}
