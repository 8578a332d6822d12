//! Where an arrow leads when so many minutes are left: its slot is a range of rows, one row for each number of minutes.

use super::arrows::Arrow;

pub trait Slot {
    /// Whether a row that the arrow leads to has its end. `number` is that of the end in a row: one more than the last
    /// row up to it that has the end, so that the whole range is one comparison.
    fn leads(arrow: &Arrow, left: usize, number: impl Fn(usize) -> u32) -> bool;
}

fn minutes(arrow: &Arrow) -> (usize, usize) {
    // A slot without end is longer than every bound as it stands.
    (usize::from(arrow.fewest), usize::from(arrow.most))
}

/// Nowhere with more minutes than are left.
pub struct Within;

impl Slot for Within {
    fn leads(arrow: &Arrow, left: usize, number: impl Fn(usize) -> u32) -> bool {
        let (fewest, most) = minutes(arrow);
        fewest <= left && number(left - fewest) as usize > left.saturating_sub(most)
    }
}

/// Out of all rows with more minutes than are left, which is all that is asked for.
pub struct Late;

impl Slot for Late {
    fn leads(arrow: &Arrow, left: usize, number: impl Fn(usize) -> u32) -> bool {
        let (fewest, most) = minutes(arrow);
        most > left || number(left - fewest) as usize > left - most
    }
}

/// To row 0 with more minutes than are left.
pub struct After;

impl Slot for After {
    fn leads(arrow: &Arrow, left: usize, number: impl Fn(usize) -> u32) -> bool {
        let (fewest, most) = minutes(arrow);
        number(left.saturating_sub(fewest)) as usize > left.saturating_sub(most)
    }
}
