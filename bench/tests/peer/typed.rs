//! The inputs of read and write have the bytes of their names and are answered as is said, and the edited texts are of
//! every sort.

use crate::common::on_a_large_stack;
use bench::peer;
use bench::{edited, texts};
use std::collections::BTreeSet;

/// The number that a name has first, of bytes.
fn bytes(name: &str) -> usize {
    name.split('-').nth(1).and_then(|number| number.parse().ok()).expect(name)
}

#[test]
fn texts_have_the_bytes_of_their_names() {
    on_a_large_stack(named_texts);
}

fn named_texts() {
    for name in texts::READS {
        let text = texts::read(name).expect(name);
        let read = peer::read_rule(&text.bytes, &mut [0; texts::RULE]).outcome;
        assert_eq!((text.bytes.len(), read), (bytes(name), text.answer), "{name}");
    }
    for name in texts::WRITES {
        let rule = texts::write(name).expect(name);
        let written = peer::write_rule(&rule.bytes, &mut [0; texts::RULE_TEXT]);
        assert_eq!((written.outcome, written.written), (rule.answer, bytes(name)), "{name}");
    }
}

#[test]
fn only_known_names_have_a_text() {
    for name in ["read-11", "read", "write-4096", "", "desk-3"] {
        assert!(texts::read(name).is_none() && texts::write(name).is_none(), "{name}");
    }
}

#[test]
fn edited_texts_are_varied() {
    let (mut numbers, mut all) = (BTreeSet::new(), BTreeSet::new());
    for text in (0..100).flat_map(edited::texts) {
        numbers.insert(peer::read_rule(&text, &mut [0; texts::RULE]).outcome.number);
        all.insert(text);
    }
    assert_eq!(numbers, BTreeSet::from([0, 64, 65]));
    assert!(all.len() > 5_000, "{}", all.len());
}
