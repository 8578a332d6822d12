//! What is counted along a run, from its last position back, so that less is better for every until.

use super::arrows::Arrow;

/// The number of a state from which no run ends well. No count of a run comes near it, however far steps move it.
pub const FAR: u32 = 1 << 31;

/// A slot without end lasts as long as any bound asks, which is 65,536 minutes at most.
const WITHOUT_END: u32 = 1 << 16;

pub trait Count {
    /// The number before the arrow, `after` being the one after it.
    fn step(arrow: &Arrow, after: u32) -> u32;
    /// The minutes of the arrow with which that number is met.
    fn duration(arrow: &Arrow, after: u32) -> u32;
}

/// The fewest minutes up to the end, for "at most".
pub struct Passed;

impl Count for Passed {
    fn step(arrow: &Arrow, after: u32) -> u32 {
        after + u32::from(arrow.fewest)
    }

    fn duration(arrow: &Arrow, _: u32) -> u32 {
        u32::from(arrow.fewest)
    }
}

/// The minutes that the most minutes up to the end leave missing, for "at least" and for a run that is late.
pub struct Missing;

impl Count for Missing {
    fn step(arrow: &Arrow, after: u32) -> u32 {
        after.saturating_sub(if arrow.most == u16::MAX { WITHOUT_END } else { u32::from(arrow.most) })
    }

    fn duration(arrow: &Arrow, after: u32) -> u32 {
        if arrow.most == u16::MAX {
            after.max(u32::from(arrow.fewest))
        } else {
            u32::from(arrow.most)
        }
    }
}
