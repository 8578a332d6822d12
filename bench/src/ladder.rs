//! A chart on which the only run within a bound climbs a ladder rung by rung, though shorter ones lead to its top.

use crate::bytes::{self, Arrow};
use crate::random::Random;
use crate::unordered::shuffled_numbers;

const STATES: usize = 256;
const ARROWS: usize = 2048;

pub struct Ladder {
    pub chart: Vec<u8>,
    /// A state at the foot.
    pub foot: usize,
    /// The minutes from foot to top over all rungs.
    pub minutes: u16,
}

/// From each state below the top one arrow is a rung. Each other arrow leads anywhere, but upwards it takes a minute more
/// at least than the rungs would: from the foot none can be taken within the minutes of the rungs, and from everywhere else
/// most can. State numbers and arrows are shuffled.
pub fn ladder(rungs: usize) -> Ladder {
    of_rungs(rungs, 5)
}

/// The same with rungs of a minute each, so that as many minutes as an exact bound may have are as many rungs.
pub fn minute_ladder(rungs: usize) -> Ladder {
    of_rungs(rungs, 1)
}

/// Rungs of up to so many minutes.
fn of_rungs(rungs: usize, longest: usize) -> Ladder {
    let mut random = Random::new(rungs as u64);
    let numbers = shuffled_numbers(STATES, &mut random);
    let level = |place: usize| place * (rungs + 1) / STATES;
    let heights = heights(rungs, longest, &mut random);
    let mut arrows = Vec::with_capacity(ARROWS);
    for i in 0..ARROWS {
        let place = i % STATES;
        let rung = i < STATES && level(place) < rungs;
        let next = if rung { on_level(rungs, level(place) + 1, &mut random) } else { random.below(STATES) };
        let climbed = heights[level(next)].saturating_sub(heights[level(place)]);
        let fewest = if rung { climbed } else { climbed + 1 + random.below(5) as u16 };
        let most = fewest + random.below(10) as u16;
        arrows.push(Arrow { start: numbers[place], end: numbers[next], fewest, most });
    }
    random.shuffle(&mut arrows);
    let mut labels = vec![0x5555; STATES];
    for place in (0..STATES).filter(|&place| level(place) == rungs) {
        labels[usize::from(numbers[place])] = 0xFFFF;
    }
    Ladder { chart: bytes::chart(&labels, &arrows), foot: usize::from(numbers[0]), minutes: heights[rungs] }
}

/// The minutes from the foot to each level.
fn heights(rungs: usize, longest: usize, random: &mut Random) -> Vec<u16> {
    let mut heights = vec![0];
    for rung in 0..rungs {
        heights.push(heights[rung] + 1 + random.below(longest) as u16);
    }
    heights
}

/// A place on that level.
fn on_level(rungs: usize, level: usize, random: &mut Random) -> usize {
    let first = |level: usize| (level * STATES).div_ceil(rungs + 1);
    first(level) + random.below(first(level + 1) - first(level))
}
