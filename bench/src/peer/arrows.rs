//! The arrows of a chart listed by one of their ends, in one block.

/// An arrow as seen from one of its ends.
#[derive(Clone, Copy, Default)]
pub struct Arrow {
    /// The state at the other end.
    pub other: u16,
    pub fewest: u16,
    pub most: u16,
}

pub struct ArrowLists {
    first: Vec<u32>,
    arrows: Vec<Arrow>,
}

impl ArrowLists {
    /// Groups (state, arrow) pairs by state, keeping their order within a state.
    pub fn group(n: usize, pairs: impl Iterator<Item = (u16, Arrow)> + Clone) -> ArrowLists {
        let mut first = vec![0u32; n + 1];
        for (state, _) in pairs.clone() {
            first[usize::from(state) + 1] += 1;
        }
        for s in 0..n {
            first[s + 1] += first[s];
        }
        let mut next = first.clone();
        let mut arrows = vec![Arrow::default(); first[n] as usize];
        for (state, arrow) in pairs {
            let place = &mut next[usize::from(state)];
            arrows[*place as usize] = arrow;
            *place += 1;
        }
        ArrowLists { first, arrows }
    }

    pub fn states(&self) -> usize {
        self.first.len() - 1
    }

    pub fn of(&self, state: usize) -> &[Arrow] {
        &self.arrows[self.first[state] as usize..self.first[state + 1] as usize]
    }

    pub fn at(&self, index: u32) -> Arrow {
        self.arrows[index as usize]
    }

    pub fn range(&self, state: usize) -> (u32, u32) {
        (self.first[state], self.first[state + 1])
    }
}
