//! Check, with buffers of its own.

use crate::{check, Refusal, MAX_MARKS, MAX_SCRATCH};

/// The marks of an accepted chart and rule: at which states each node holds.
#[derive(Clone, Debug, PartialEq, Eq)]
pub struct Marks {
    states: usize,
    nodes: usize,
    table: Vec<u8>,
}

/// Checks the rule over the chart and gives the marks.
///
/// # Errors
///
/// The refusal: 1 to 16 or 19. The buffers are large enough for every chart and rule, so 17 and 18 don't occur.
///
/// ```
/// let chart = [1, 0, 0, 0, 19, 0, 1, 0, 1, 0, 0, 0, 0, 0, 0, 0, 1, 0, 1]; // one state, an arrow of 1 to 1 minutes
/// let rule = [1, 0, 0, 0, 15, 0, 1, 0, 0, 0, 0, 0, 0, 0, 0]; // true
/// let marks = doilystrand::marks(&chart, &rule)?;
/// assert_eq!((marks.states(), marks.nodes()), (1, 1));
/// assert!(marks.holds(0, 0));
///
/// let refusal = doilystrand::marks(&chart, &[]).unwrap_err();
/// assert_eq!(refusal.to_string(), "refused 10 at 0 3: rule under 7 bytes (rule)");
/// # Ok::<(), doilystrand::Refusal>(())
/// ```
pub fn marks(chart: &[u8], rule: &[u8]) -> Result<Marks, Refusal> {
    let mut table = vec![0; MAX_MARKS];
    check(chart, rule, &mut table, &mut vec![0; MAX_SCRATCH]).into_result()?;
    let (states, nodes) = (count(chart), count(rule));
    table.truncate(nodes * states);
    table.iter().copied().for_each(tested);
    Ok(Marks { states, nodes, table })
}

/// The n of an accepted chart, the k of an accepted rule.
fn count(accepted: &[u8]) -> usize {
    usize::from(u16::from_be_bytes([accepted[5], accepted[6]]))
}

impl Marks {
    /// How many states the chart has.
    #[must_use]
    pub fn states(&self) -> usize {
        self.states
    }

    /// How many nodes the rule has.
    #[must_use]
    pub fn nodes(&self) -> usize {
        self.nodes
    }

    /// Whether the node holds at the state.
    ///
    /// # Panics
    ///
    /// If the rule has no such node or the chart no such state.
    #[must_use]
    pub fn holds(&self, node: usize, state: usize) -> bool {
        assert!(state < self.states, "state {state} of {} states", self.states);
        self.row(node)[state] == 1
    }

    /// Whether the rule itself, which is its last node, holds at the state.
    ///
    /// # Panics
    ///
    /// If the chart has no such state.
    #[must_use]
    pub fn rule_holds(&self, state: usize) -> bool {
        self.holds(self.nodes - 1, state)
    }

    /// The node's marks: a byte for each state, 1 where the node holds and else 0.
    ///
    /// # Panics
    ///
    /// If the rule has no such node.
    #[must_use]
    pub fn row(&self, node: usize) -> &[u8] {
        assert!(node < self.nodes, "node {node} of {} nodes", self.nodes);
        &self.table[node * self.states..][..self.states]
    }

    /// The marks of the rule itself, which is its last node.
    #[must_use]
    pub fn rule_row(&self) -> &[u8] {
        self.row(self.nodes - 1)
    }

    /// The whole table as check writes it, row after row.
    #[must_use]
    pub fn table(&self) -> &[u8] {
        &self.table
    }
}

fn tested(mark: u8) {
    assert!(mark <= 1, "the library writes mark {mark}, which is neither 0 nor 1");
}

#[cfg(test)]
mod tests {
    use super::*;
    use crate::samples::{largest_chart, largest_rule, SHORT, WITHIN_13};

    fn short() -> Marks {
        marks(SHORT, WITHIN_13).expect("Short is accepted")
    }

    #[test]
    fn marks_are_the_listing() {
        let marks = short();
        assert_eq!((marks.states(), marks.nodes()), (3, 3));
        assert_eq!(marks.table(), [1, 1, 1, 0, 0, 1, 0, 1, 1]);
        assert_eq!((marks.row(0), marks.row(1)), (&[1, 1, 1][..], &[0, 0, 1][..]));
        assert_eq!(marks.rule_row(), [0, 1, 1]);
        assert_eq!([0, 1, 2].map(|state| marks.holds(1, state)), [false, false, true]);
        assert_eq!([0, 1, 2].map(|state| marks.rule_holds(state)), [false, true, true]);
    }

    #[test]
    fn refusals_are_given() {
        let number = |chart, rule| marks(chart, rule).expect_err("a refusal").outcome().number;
        assert_eq!(number(&[], WITHIN_13), 1);
        assert_eq!(number(SHORT, &[]), 10);
        assert_eq!(number(&SHORT[..38], WITHIN_13), 3);
    }

    #[test]
    fn the_largest_fits() {
        let marks = marks(&largest_chart(), &largest_rule()).expect("the largest is accepted");
        assert_eq!((marks.states(), marks.nodes(), marks.table().len()), (256, 64, MAX_MARKS));
        assert_eq!((marks.row(62), marks.rule_row()), (&[1; 256][..], &[0; 256][..]));
    }

    #[test]
    #[should_panic = "node 3 of 3 nodes"]
    fn no_such_node() {
        let _ = short().row(3);
    }

    #[test]
    #[should_panic = "state 3 of 3 states"]
    fn no_such_state() {
        let _ = short().holds(0, 3);
    }

    #[test]
    #[should_panic = "the library writes mark 2, which is neither 0 nor 1"]
    fn unknown_mark_panics() {
        tested(2);
    }
}
