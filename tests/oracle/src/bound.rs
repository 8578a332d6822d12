//! What the bound of an until asks of a moment.

use crate::rule::{Node, AT_LEAST, AT_MOST};

#[derive(Clone, Copy, PartialEq, Eq)]
pub enum Bound {
    AtMost,
    AtLeast,
    Exactly,
}

impl Bound {
    /// Of an until that row 14 lets pass.
    pub fn of(node: &Node) -> Bound {
        match node.bound_kind {
            AT_MOST => Bound::AtMost,
            AT_LEAST => Bound::AtLeast,
            _ => Bound::Exactly,
        }
    }

    /// c + 1 may stand for all that is above c.
    pub fn is_met<T: Ord>(self, moment: T, c: T) -> bool {
        match self {
            Bound::AtMost => moment <= c,
            Bound::AtLeast => moment >= c,
            Bound::Exactly => moment == c,
        }
    }
}
