//! An outcome as the papers tell it.

use oracle::Outcome;

/// Number, place and entry.
pub type Told = (u32, u32, u32);

pub fn told(Outcome { number, place, entry }: Outcome) -> Told {
    (number, place, entry)
}
