//! A chart on which a minute has much in it: one state gets into its row after the other, by arrows of no minute.

use crate::bytes::{self, Arrow};
use crate::random::Random;

const STATES: usize = 256;
const EACH: usize = 8;
const PART: usize = 64;
/// The places of a part that stand in a row; the others are aside.
const ROW: usize = 56;

/// Four parts, with no arrow from one to another. From each place of a row two arrows of no minute lead to the next,
/// and six of 1 to 20 aside; at the end of the row one may wait. From aside all lead aside. In two parts Q is at the
/// end of the row and nothing aside: so E is made all along the row by the arrows of no minute alone, in every minute
/// anew. In the two others Q is aside: so A is failed by them alone.
pub fn chart() -> Vec<u8> {
    let mut random = Random::new(12);
    let mut arrows: Vec<Arrow> = (0..STATES * EACH).map(|i| arrow(i / EACH, i % EACH, &mut random)).collect();
    random.shuffle(&mut arrows);
    arrows.sort_by_key(|arrow| arrow.start);
    let mut labels = vec![0; STATES];
    for place in 0..STATES {
        labels[usize::from(number(place))] = labels_of(place);
    }
    bytes::chart(&labels, &arrows)
}

/// Even places ascending, then odd ones descending, and the arrows are listed by these numbers: so a round over states
/// or arrows, in either direction, carries a mark two places on only.
fn number(place: usize) -> u16 {
    let half = place / 2;
    (if place % 2 == 0 { half } else { STATES - 1 - half }) as u16
}

/// Arrow i from that place.
fn arrow(place: usize, i: usize, random: &mut Random) -> Arrow {
    let (part, at) = (place / PART * PART, place % PART);
    let (next, fewest, most) = match i {
        0 | 1 if at + 1 == ROW => (at, 1, 1),
        0 | 1 if at + 1 < PART => (at + 1, 0, 0),
        _ => {
            let fewest = 1 + random.below(20);
            (ROW + random.below(PART - ROW), fewest, fewest + random.below(21 - fewest))
        }
    };
    Arrow { start: number(place), end: number(part + next), fewest: fewest as u16, most: most as u16 }
}

/// Even labels are P, odd ones Q.
fn labels_of(place: usize) -> u16 {
    let (end, aside) = if place / PART % 2 == 0 { (0xFFFF, 0) } else { (0x5555, 0xFFFF) };
    match place % PART + 1 {
        ROW => end,
        at if at < ROW => 0x5555,
        _ => aside,
    }
}
