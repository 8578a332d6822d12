//! A chart on which long runs go round a ring, part of it or the whole, and every step leads off it too.

use crate::bytes::{self, Arrow};
use crate::random::Random;
use crate::unordered::shuffled_numbers;

const STATES: usize = 256;
const ARROWS: usize = 2048;

/// The places on the ring; the others are goals.
const RING: usize = 240;

pub struct Ring {
    pub chart: Vec<u8>,
    /// A state on the ring.
    pub start: usize,
    arrows: Vec<Arrow>,
    goals: Vec<bool>,
}

/// From each state on the ring an arrow of 10 to 20 minutes leads along it, one of fewer to a goal, and six such anywhere;
/// from a goal all lead anywhere. State numbers and arrows are shuffled.
pub fn ring() -> Ring {
    let mut random = Random::new(5);
    let numbers = shuffled_numbers(STATES, &mut random);
    let mut arrows = Vec::with_capacity(ARROWS);
    for i in 0..ARROWS {
        let place = i % STATES;
        let (next, most) = match i / STATES {
            0 if place < RING => ((place + 1) % RING, 10 + random.below(11)),
            1 if place < RING => (RING + random.below(STATES - RING), 1 + random.below(9)),
            _ => (random.below(STATES), 1 + random.below(9)),
        };
        let fewest = 1 + random.below(most) as u16;
        arrows.push(Arrow { start: numbers[place], end: numbers[next], fewest, most: most as u16 });
    }
    random.shuffle(&mut arrows);
    let mut goals = vec![false; STATES];
    for &goal in &numbers[RING..] {
        goals[usize::from(goal)] = true;
    }
    let labels: Vec<u16> = goals.iter().map(|&goal| if goal { 0xFFFF } else { 0x5555 }).collect();
    Ring { chart: bytes::chart(&labels, &arrows), start: usize::from(numbers[0]), arrows, goals }
}

impl Ring {
    /// The most minutes in which so many steps lead from the start to a goal.
    pub fn to_a_goal(&self, steps: usize) -> Option<u16> {
        self.most(steps, |s| self.goals[s], |_| true)
    }

    /// The most minutes of so many steps from the start that leave no goal.
    pub fn before_a_goal(&self, steps: usize) -> Option<u16> {
        self.most(steps, |_| true, |s| !self.goals[s])
    }

    fn most(&self, steps: usize, ends: impl Fn(usize) -> bool, go: impl Fn(usize) -> bool) -> Option<u16> {
        let mut most: Vec<Option<u16>> = (0..STATES).map(|s| ends(s).then_some(0)).collect();
        for _ in 0..steps {
            let mut before = vec![None; STATES];
            for arrow in self.arrows.iter().filter(|arrow| go(usize::from(arrow.start))) {
                let minutes = most[usize::from(arrow.end)].map(|minutes| minutes + arrow.most);
                let start = &mut before[usize::from(arrow.start)];
                *start = minutes.max(*start);
            }
            most = before;
        }
        most[self.start]
    }
}
