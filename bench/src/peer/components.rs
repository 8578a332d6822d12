//! Tarjan's strongly connected components, without recursion, a component after all that it leads to.

use super::arrows::{Arrow, ArrowLists};

const UNSEEN: u16 = 0;
/// Above every number of a state still open, so that it never lowers one.
const SETTLED: u16 = u16::MAX;

/// A state being visited and its arrows not yet followed.
struct Visit {
    state: u16,
    next: u32,
    end: u32,
}

/// A component, once it is closed.
pub struct Component<'a> {
    pub members: &'a [u16],
    /// Its number, which no other state has, and all numbers.
    number: u16,
    numbers: &'a [u16],
}

impl Component<'_> {
    /// Whether time can pass within it: an arrow between two of its members lies on a loop.
    pub fn passes(&self, out: &ArrowLists) -> bool {
        let passes = |arrow: &Arrow| arrow.most > 0 && self.numbers[usize::from(arrow.other)] == self.number;
        self.members.iter().any(|&s| out.of(usize::from(s)).iter().any(passes))
    }
}

/// The tables of the search, kept from one search to the next.
pub struct Components {
    found: Vec<u16>,
    /// The lowest number that is found from each state; once it is settled, that of its component.
    low: Vec<u16>,
    visits: Vec<Visit>,
    open: Vec<u16>,
    count: u16,
}

impl Components {
    pub fn new(n: usize) -> Components {
        Components {
            found: vec![UNSEEN; n],
            low: vec![UNSEEN; n],
            visits: Vec::with_capacity(n),
            open: Vec::with_capacity(n),
            count: 0,
        }
    }

    /// Hands the components of the states that are `inside` or reached from there to `settled`; only arrows that are to
    /// be followed count.
    pub fn each(
        &mut self,
        out: &ArrowLists,
        inside: impl Fn(usize) -> bool,
        follow: impl Fn(&Arrow) -> bool,
        mut settled: impl FnMut(Component),
    ) {
        self.found.fill(UNSEEN);
        self.low.fill(UNSEEN);
        self.count = 0;
        for state in 0..out.states() {
            if self.found[state] == UNSEEN && inside(state) {
                self.search(state, out, &follow, &mut settled);
            }
        }
    }

    fn search(
        &mut self,
        root: usize,
        out: &ArrowLists,
        follow: &impl Fn(&Arrow) -> bool,
        settled: &mut impl FnMut(Component),
    ) {
        self.enter(root, out);
        while let Some(visit) = self.visits.last_mut() {
            if visit.next == visit.end {
                self.leave(settled);
                continue;
            }
            let state = usize::from(visit.state);
            let arrow = out.at(visit.next);
            visit.next += 1;
            if !follow(&arrow) {
                continue;
            }
            match self.found[usize::from(arrow.other)] {
                UNSEEN => self.enter(usize::from(arrow.other), out),
                found => self.low[state] = self.low[state].min(found),
            }
        }
    }

    fn enter(&mut self, state: usize, out: &ArrowLists) {
        self.count += 1;
        self.found[state] = self.count;
        self.low[state] = self.count;
        self.open.push(state as u16);
        let (next, end) = out.range(state);
        self.visits.push(Visit { state: state as u16, next, end });
    }

    fn leave(&mut self, settled: &mut impl FnMut(Component)) {
        let Some(visit) = self.visits.pop() else { return };
        let state = usize::from(visit.state);
        let low = self.low[state];
        if low == self.found[state] {
            self.close(visit.state, settled);
        } else if let Some(before) = self.visits.last() {
            // A state that isn't the first of its component was entered from within it.
            let before = usize::from(before.state);
            self.low[before] = self.low[before].min(low);
        }
    }

    /// The open states from `first` on are a component.
    fn close(&mut self, first: u16, settled: &mut impl FnMut(Component)) {
        let start = self.open.iter().rposition(|&state| state == first).unwrap_or(0);
        let (members, number) = (&self.open[start..], self.found[usize::from(first)]);
        for &state in members {
            self.found[usize::from(state)] = SETTLED;
            self.low[usize::from(state)] = number;
        }
        settled(Component { members, number, numbers: &self.low });
        self.open.truncate(start);
    }
}
