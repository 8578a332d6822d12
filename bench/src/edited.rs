//! The texts of drawn rules, each as it is and with single edits.

use crate::drawn;
use crate::exact::made_exact;
use crate::peer;
use crate::random::Random;
use crate::texts::RULE_TEXT;

/// Bytes of texts, and a few that are none.
const BYTES: &[u8] = b"trueLEAU!()&|<>= 0123456789x\n\x80";

/// How many edits of one text.
const EDITS: usize = 60;

/// A formula by the seed, then the same with one byte deleted, inserted or replaced, at places drawn by the seed.
pub fn texts(seed: u64) -> Vec<Vec<u8>> {
    let (text, mut random) = (formula(seed), Random::new(5 * seed + 7));
    let mut texts: Vec<Vec<u8>> = (0..EDITS).map(|_| edited(text.clone(), &mut random)).collect();
    texts.push(text);
    texts
}

/// The text of a drawn rule; every fourth is joined to the one before, so that some have more nodes than a rule may.
fn formula(seed: u64) -> Vec<u8> {
    if seed % 4 == 3 {
        return [b"(", &drawn_text(seed)[..], b" & ", &drawn_text(seed - 1), b")"].concat();
    }
    drawn_text(seed)
}

/// Every other one has exact bounds.
fn drawn_text(seed: u64) -> Vec<u8> {
    let mut text = vec![0; RULE_TEXT];
    let rule = if seed % 2 == 0 { drawn::rule(seed) } else { made_exact(drawn::rule(seed)) };
    let written = peer::write_rule(&rule, &mut text).written;
    text.truncate(written);
    text
}

fn edited(mut text: Vec<u8>, random: &mut Random) -> Vec<u8> {
    let (at, byte) = (random.below(text.len()), BYTES[random.below(BYTES.len())]);
    match random.below(3) {
        0 => {
            text.remove(at);
        }
        1 => text.insert(at, byte),
        _ => text[at] = byte,
    }
    text
}
