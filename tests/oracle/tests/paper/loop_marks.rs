//! Marks on charts with loops in no time: "a run counts only if its moments pass every number, in E and in A alike".

use crate::last_marks::last_marks;
use crate::make::{chart, label, ArrowFields, NodeFields, A, AT_LEAST, AT_MOST, E, NO_END, TRUE};

/// Labels of a state: P is L0 and Q is L1.
const P: u16 = 1;
const Q: u16 = 2;

struct Case(Vec<u8>);

impl Case {
    fn of(labels: &[u16], arrows: &[ArrowFields]) -> Case {
        Case(chart(labels, arrows))
    }

    /// The marks of P until Q.
    fn marked(&self, operation: u8, kind: u8, c: u16, marks: &str) -> &Case {
        let nodes = [label(0), label(1), (operation, kind, 0, 1, c)];
        assert_eq!(last_marks(&self.0, &nodes), marks, "{operation} {kind} {c}");
        self
    }

    fn marked_for_every(&self, operation: u8, kind: u8, marks: &str) -> &Case {
        for c in [0, 1, 2, 3, 99, 255, 256, 9_999] {
            self.marked(operation, kind, c, marks);
        }
        self
    }
}

/// Handing a job back and forth takes 0 to 3 minutes each way.
#[test]
fn back_and_forth() {
    let chart = chart(&[0, 1], &[[0, 1, 0, 3], [1, 0, 0, 3]]);
    let true_l0 = |operation, kind, c| -> [NodeFields; 3] { [TRUE, label(0), (operation, kind, 0, 1, c)] };
    assert_eq!(last_marks(&chart, &true_l0(A, AT_MOST, 2)), "01");
    assert_eq!(last_marks(&chart, &true_l0(A, AT_MOST, 3)), "11");
    for c in [0, 99, 65_535] {
        assert_eq!(last_marks(&chart, &true_l0(A, AT_LEAST, c)), "11");
        assert_eq!(last_marks(&chart, &true_l0(E, AT_LEAST, c)), "11");
        assert_eq!(last_marks(&chart, &true_l0(E, AT_MOST, c)), "11");
    }
}

/// One may stay at 0 for ever, but in no time: no such run counts. Nor does the stay gain minutes.
#[test]
fn a_stay_in_no_time() {
    let at_once = Case::of(&[P, Q], &[[0, 0, 0, 0], [0, 1, 0, 0], [1, 1, 1, 1]]);
    at_once.marked_for_every(A, AT_MOST, "11").marked_for_every(E, AT_MOST, "11");
    at_once.marked(A, AT_LEAST, 0, "11").marked(E, AT_LEAST, 0, "11");
    at_once.marked(A, AT_LEAST, 1, "00").marked(E, AT_LEAST, 1, "00");
    let later = Case::of(&[P, Q], &[[0, 0, 0, 0], [0, 1, 2, 4], [1, 1, 0, 1]]);
    later.marked(A, AT_MOST, 3, "01").marked(A, AT_MOST, 4, "11");
    later.marked(A, AT_LEAST, 2, "10").marked(A, AT_LEAST, 3, "00");
    later.marked(E, AT_MOST, 1, "01").marked(E, AT_MOST, 2, "11");
    later.marked(E, AT_LEAST, 4, "10").marked(E, AT_LEAST, 5, "00");
    let both = Case::of(&[P, P | Q], &[[0, 0, 0, 0], [0, 1, 0, 0], [1, 1, 1, 1]]);
    both.marked_for_every(A, AT_LEAST, "11").marked_for_every(E, AT_LEAST, "11");
}

/// Time can pass on the stay: it fails every A, and lets E "at least" gain without end.
#[test]
fn a_stay_in_which_time_can_pass() {
    for slots in [vec![[0, 0, 0, 1]], vec![[0, 0, 0, NO_END]], vec![[0, 0, 0, 0], [0, 0, 0, 3]]] {
        let arrows = [slots.as_slice(), &[[0, 1, 0, 0], [1, 1, 1, 1]]].concat();
        let case = Case::of(&[P, Q], &arrows);
        case.marked_for_every(A, AT_MOST, "01").marked_for_every(E, AT_MOST, "11");
        case.marked(A, AT_LEAST, 0, "01").marked(E, AT_LEAST, 0, "11");
        for c in [1, 99, 255, 65_535] {
            case.marked(A, AT_LEAST, c, "00").marked(E, AT_LEAST, c, "10");
        }
    }
}

/// Of the loop of 0 and 1 one arrow can take time, or none: then every run that counts leaves it.
#[test]
fn two_states_in_turn() {
    let arrows = |most| [[0, 1, 0, 0], [1, 0, 0, most], [1, 2, 0, 0], [2, 2, 1, 1]];
    let untimed = Case::of(&[P, P, Q], &arrows(0));
    untimed.marked_for_every(A, AT_MOST, "111").marked(A, AT_LEAST, 0, "111");
    untimed.marked(A, AT_LEAST, 1, "000").marked(E, AT_LEAST, 1, "000");
    let timed = Case::of(&[P, P, Q], &arrows(3));
    timed.marked_for_every(A, AT_MOST, "001").marked(A, AT_LEAST, 0, "001");
    timed.marked(A, AT_LEAST, 1, "000").marked(E, AT_LEAST, 255, "110");
    let unneeded = Case::of(&[P, Q, Q], &arrows(3));
    unneeded.marked_for_every(A, AT_MOST, "111").marked(A, AT_LEAST, 1, "000");
}

/// Time passes only by the arrow from 2, so every run that counts comes to 2 again and again, at moments as late as
/// may be asked for. At 2 it goes on only if P holds there too.
#[test]
fn time_passes_only_by_way_of_q() {
    let arrows = [[0, 1, 0, 0], [1, 0, 0, 0], [1, 2, 0, 0], [2, 1, 0, 5]];
    let both = Case::of(&[P, P, P | Q], &arrows);
    both.marked_for_every(A, AT_MOST, "111").marked_for_every(A, AT_LEAST, "111");
    both.marked_for_every(E, AT_MOST, "111").marked_for_every(E, AT_LEAST, "111");
    let q_alone = Case::of(&[P, P, Q], &arrows);
    q_alone.marked_for_every(A, AT_MOST, "111").marked(A, AT_LEAST, 0, "111");
    q_alone.marked(A, AT_LEAST, 1, "000").marked(E, AT_LEAST, 1, "000");
}

/// State 1 has neither operand; what leads there within the minute fails.
#[test]
fn neither_operand_beside_a_stay() {
    let by_turns = Case::of(&[P, 0, P | Q], &[[0, 1, 0, 0], [1, 0, 0, 0], [1, 2, 0, 0], [2, 2, 0, 1]]);
    by_turns.marked_for_every(A, AT_MOST, "001").marked_for_every(A, AT_LEAST, "001");
    by_turns.marked_for_every(E, AT_MOST, "001").marked_for_every(E, AT_LEAST, "001");
    let beside = Case::of(&[P, 0, P], &[[0, 2, 0, 0], [2, 0, 0, 0], [2, 1, 0, 0], [1, 1, 1, 1]]);
    beside.marked_for_every(A, AT_MOST, "000").marked_for_every(A, AT_LEAST, "000");
}

/// The arrow from 0 can take 3 minutes once; the stay at 1 adds none.
#[test]
fn time_before_a_stay() {
    let case = Case::of(&[P, P, Q], &[[0, 1, 0, 3], [1, 1, 0, 0], [1, 2, 0, 0], [2, 2, 1, 1]]);
    case.marked(A, AT_MOST, 0, "011").marked(A, AT_MOST, 2, "011").marked(A, AT_MOST, 3, "111");
    case.marked(E, AT_LEAST, 3, "100").marked(E, AT_LEAST, 4, "000").marked(A, AT_LEAST, 1, "000");
}

/// From every state some run counts, and on each that does every moment is passed.
#[test]
fn every_moment_comes() {
    let chart = chart(&[0; 3], &[[0, 0, 0, 0], [0, 1, 0, 0], [1, 0, 0, 0], [1, 2, 0, 0], [2, 2, 0, 1]]);
    for c in [0, 1, 255, 65_535] {
        for (operation, kind) in [(A, AT_LEAST), (E, AT_LEAST), (A, AT_MOST), (E, AT_MOST)] {
            assert_eq!(last_marks(&chart, &[TRUE, TRUE, (operation, kind, 0, 1, c)]), "111");
        }
    }
}

/// All 256 states by turns, in no time; the way out at the end of the ring comes to Q or to neither operand.
#[test]
fn the_largest_ring() {
    let mut arrows: Vec<ArrowFields> = (0..255).map(|s| [s, (s + 1) % 255, 0, 0]).collect();
    arrows.extend([[254, 255, 0, 0], [255, 255, 0, 1]]);
    for (last, marks) in [(Q, "1"), (0, "0")] {
        let mut labels = [P; 256];
        labels[255] = last;
        let case = Case::of(&labels, &arrows);
        case.marked(A, AT_MOST, 255, &marks.repeat(256)).marked(A, AT_LEAST, 0, &marks.repeat(256));
        case.marked(E, AT_MOST, 255, &marks.repeat(256)).marked(E, AT_LEAST, 255, &"0".repeat(256));
    }
}
