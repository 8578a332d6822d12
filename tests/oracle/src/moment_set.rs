//! Sets of moments from 0 to 255, a bit each.

/// The moments from 0 to 127, and from 128 to 255.
#[derive(Clone, Copy, PartialEq, Eq)]
pub struct MomentSet {
    low: u128,
    high: u128,
}

const HALF: usize = 128;
const LAST: usize = 255;

impl MomentSet {
    pub const NONE: MomentSet = MomentSet { low: 0, high: 0 };
    /// Moment 0 alone.
    pub const START: MomentSet = MomentSet { low: 1, high: 0 };

    pub fn or(self, other: MomentSet) -> MomentSet {
        MomentSet { low: self.low | other.low, high: self.high | other.high }
    }

    /// What lies in this set and not in the other.
    pub fn without(self, other: MomentSet) -> MomentSet {
        MomentSet { low: self.low & !other.low, high: self.high & !other.high }
    }

    /// Every moment so many minutes later; those past 255 fall out.
    pub fn later(self, minutes: usize) -> MomentSet {
        match minutes {
            0 => self,
            1..HALF => {
                MomentSet { low: self.low << minutes, high: self.high << minutes | self.low >> (HALF - minutes) }
            }
            HALF..=LAST => MomentSet { low: 0, high: self.low << (minutes - HALF) },
            _ => MomentSet::NONE,
        }
    }

    /// The moments after a step of that slot. Each round doubles the durations that are covered.
    pub fn after(self, fewest: usize, most: usize) -> MomentSet {
        let wanted = most.min(LAST).saturating_sub(fewest) + 1;
        let (mut reached, mut covered) = (self.later(fewest), 1);
        while covered < wanted {
            let more = covered.min(wanted - covered);
            reached = reached.or(reached.later(more));
            covered += more;
        }
        reached
    }

    /// Those that are not above this one.
    pub fn up_to(self, moment: usize) -> MomentSet {
        let first = |count: usize| if count < HALF { (1 << count) - 1 } else { u128::MAX };
        MomentSet { low: self.low & first(moment + 1), high: self.high & first((moment + 1).saturating_sub(HALF)) }
    }

    /// The greatest.
    pub fn last(self) -> Option<usize> {
        let high = self.high.checked_ilog2().map(|bit| HALF + bit as usize);
        high.or(self.low.checked_ilog2().map(|bit| bit as usize))
    }
}
