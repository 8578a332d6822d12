//! One case: a call and everything that is lent to it.

use crate::random::rng::Rng;

/// A buffer that is lent for writing: its length and the number its content is made from.
#[derive(Clone, Copy, Debug, PartialEq, Eq)]
pub struct Lent {
    pub length: usize,
    pub fill: u64,
}

#[derive(Clone, Copy, Debug, PartialEq, Eq)]
pub enum Table {
    Overview,
    Detail,
}

#[derive(Clone, Debug, PartialEq, Eq)]
pub enum Case {
    Check { chart: Vec<u8>, rule: Vec<u8>, marks: Lent, scratch: Lent },
    Count { chart: Vec<u8>, rule: Vec<u8>, marks: Lent, scratch: Lent },
    Kind { rule: Vec<u8> },
    Map { detail: Vec<u8>, overview: Vec<u8>, map: Vec<u8> },
    Row { overview: Vec<u8>, detail: Vec<u8>, choice: Table, n: usize, t: usize },
    Show { chart: Vec<u8>, rule: Vec<u8>, marks: Lent, scratch: Lent, node: usize, state: usize, output: Lent },
    Read { text: Vec<u8>, output: Lent },
    Write { rule: Vec<u8>, output: Lent },
}

pub const CALLS: [&str; 8] = ["check", "kind", "map", "row", "show", "count", "read", "write"];

/// Places in `CALLS`.
pub const CHECK: usize = 0;
pub const KIND: usize = 1;
pub const MAP: usize = 2;
pub const ROW: usize = 3;
pub const SHOW: usize = 4;
pub const COUNT: usize = 5;
pub const READ: usize = 6;
pub const WRITE: usize = 7;

impl Lent {
    pub fn new(length: usize, fill: u64) -> Lent {
        Lent { length, fill }
    }

    pub fn bytes(&self) -> Vec<u8> {
        let mut rng = Rng::new(self.fill);
        (0..self.length).map(|_| rng.next() as u8).collect()
    }

    pub fn numbers(&self) -> Vec<u32> {
        let mut rng = Rng::new(self.fill);
        (0..self.length).map(|_| rng.next() as u32).collect()
    }
}

impl Case {
    /// The charts that are handed to the call.
    pub fn charts(&self) -> Vec<&[u8]> {
        match self {
            Case::Check { chart, .. } | Case::Count { chart, .. } | Case::Show { chart, .. } => vec![chart],
            Case::Map { detail, overview, .. } => vec![detail, overview],
            Case::Kind { .. } | Case::Row { .. } | Case::Read { .. } | Case::Write { .. } => Vec::new(),
        }
    }

    /// The place of the call in `CALLS`.
    pub fn call(&self) -> usize {
        match self {
            Case::Check { .. } => CHECK,
            Case::Kind { .. } => KIND,
            Case::Map { .. } => MAP,
            Case::Row { .. } => ROW,
            Case::Show { .. } => SHOW,
            Case::Count { .. } => COUNT,
            Case::Read { .. } => READ,
            Case::Write { .. } => WRITE,
        }
    }
}
