//! Marks of "exactly c": "document 01's with an equal moment".

use crate::last_marks::last_marks;
use crate::make::{chart, label, short, undo, ArrowFields, A, AT_LEAST, AT_MOST, E, EXACTLY, NO_END, TRUE};

/// Labels of a state: P is L0 and Q is L1.
const P: u16 = 1;
const Q: u16 = 2;

struct Case(Vec<u8>);

impl Case {
    fn of(labels: &[u16], arrows: &[ArrowFields]) -> Case {
        Case(chart(labels, arrows))
    }

    /// The marks of P until Q, exactly c.
    fn marked(&self, operation: u8, c: u16, marks: &str) -> &Case {
        let nodes = [label(0), label(1), (operation, EXACTLY, 0, 1, c)];
        assert_eq!(last_marks(&self.0, &nodes), marks, "{operation} {c}");
        self
    }

    /// The marks of true until Q.
    fn true_until(&self, operation: u8, kind: u8, c: u16, marks: &str) -> &Case {
        let nodes = [TRUE, label(1), (operation, kind, 0, 1, c)];
        assert_eq!(last_marks(&self.0, &nodes), marks, "true, {operation} {kind} {c}");
        self
    }
}

/// The examples of the readings.
#[test]
fn l2_of_short() {
    let marks = |chart: &[u8], operation, c| last_marks(chart, &[TRUE, label(2), (operation, EXACTLY, 0, 1, c)]);
    let some = [(0, "011"), (4, "010"), (5, "100"), (14, "100"), (15, "000"), (25, "011"), (26, "011")];
    for (c, row) in some {
        assert_eq!(marks(&short(), E, c), row, "{c}");
    }
    for (c, row) in [(0, "001"), (4, "000"), (5, "000"), (14, "000"), (25, "000")] {
        assert_eq!(marks(&short(), A, c), row, "{c}");
    }
    assert_eq!(marks(&undo(), E, 15), "110");
}

/// State 1 is come to at moment 3 already, and left in no time.
#[test]
fn p_is_asked_at_moment_c() {
    let arrows = [[0, 1, 3, 3], [1, 2, 0, 0], [2, 2, 1, 1]];
    let without = Case::of(&[P, 0, Q], &arrows);
    without.marked(E, 3, "000").marked(A, 3, "000");
    without.true_until(E, EXACTLY, 3, "111").true_until(A, EXACTLY, 3, "111");
    let with = Case::of(&[P, P, Q], &arrows);
    with.marked(E, 3, "100").marked(A, 3, "100").marked(E, 0, "011").marked(A, 0, "011");
}

/// Several positions share moment 2, and Q may hold at any of them.
#[test]
fn q_at_a_later_position_of_the_same_moment() {
    let arrows = [[0, 1, 2, 2], [1, 2, 0, 0], [2, 3, 0, 0], [3, 3, 1, 1]];
    for (labels, marks) in
        [([P, P, P, Q], "1000"), ([P, P, Q, 0], "1000"), ([P, Q, 0, 0], "1000"), ([P, P, 0, Q], "0000")]
    {
        Case::of(&labels, &arrows).marked(E, 2, marks).marked(A, 2, marks);
    }
    // The last of them takes time, so Q comes a minute late.
    let late = [[0, 1, 2, 2], [1, 2, 0, 0], [2, 3, 1, 1], [3, 3, 1, 1]];
    Case::of(&[P, P, P, Q], &late).marked(E, 2, "0000").marked(A, 2, "0000").marked(A, 3, "1000");
}

#[test]
fn a_run_jumps_over_c() {
    let twos = Case::of(&[P, P | Q], &[[0, 1, 2, 2], [1, 1, 2, 2]]);
    twos.marked(E, 3, "00").marked(A, 3, "00").marked(E, 4, "11").marked(A, 4, "11").marked(A, 0, "01");
    twos.marked(E, 254, "11").marked(A, 254, "11").marked(E, 255, "00").marked(A, 255, "00");
    // It may, but need not.
    let either = Case::of(&[P, P | Q], &[[0, 1, 1, 2], [1, 1, 2, 2]]);
    either.marked(E, 3, "10").marked(A, 3, "00").marked(E, 4, "11").marked(A, 4, "01");
}

/// A run that can stretch past c fails, however soon Q came before.
#[test]
fn a_is_not_at_most_and_at_least() {
    let case = Case::of(&[0, Q], &[[0, 1, 1, 1], [1, 1, 2, 2]]);
    case.true_until(A, AT_MOST, 2, "11").true_until(A, AT_LEAST, 2, "11").true_until(A, EXACTLY, 2, "01");
    let stretched = Case::of(&[P, P | Q], &[[0, 1, 1, 1], [1, 1, 1, 2]]);
    stretched.marked(A, 1, "10").marked(A, 0, "01").marked(A, 2, "00").marked(E, 2, "11");
}

/// A step of either length meets it later.
#[test]
fn a_minute_more_or_less_is_waited_for() {
    let case = Case::of(&[P, P | Q], &[[0, 1, 1, 2], [1, 1, 1, 1]]);
    case.marked(A, 1, "01").marked(A, 2, "11").marked(A, 255, "11").marked(E, 1, "11").marked(E, 0, "01");
}

/// Before moment c Q alone ends nothing well, and neither does it at c without having been reached by P.
#[test]
fn q_too_early() {
    let case = Case::of(&[P, Q, P | Q], &[[0, 1, 1, 1], [1, 2, 1, 1], [2, 2, 1, 1]]);
    case.marked(E, 2, "001").marked(A, 2, "001").marked(E, 1, "101").marked(A, 0, "011");
}

/// At moment c a stay of 0 to 0 is no run, and one in which time can pass is one that passes c.
#[test]
fn a_stay_at_moment_c() {
    let stay = |most| [[0, 1, 3, 3], [1, 1, 0, most], [1, 2, 0, 0], [2, 2, 1, 1]];
    Case::of(&[P, P, Q], &stay(0)).marked(A, 3, "100").marked(A, 0, "011").marked(E, 3, "100");
    Case::of(&[P, P, Q], &stay(1)).marked(A, 3, "000").marked(A, 0, "001").marked(E, 3, "110");
    Case::of(&[P, P, Q], &stay(NO_END)).marked(A, 3, "000").marked(E, 3, "110").marked(E, 255, "110");
    // By turns with another state, in no time.
    let turns = [[0, 1, 0, 0], [1, 0, 0, 0], [1, 2, 0, 0], [2, 2, 1, 1]];
    Case::of(&[P, P, Q], &turns).marked(A, 0, "111").marked(A, 1, "000").marked(E, 1, "000");
    Case::of(&[P, P, P], &turns).marked(A, 0, "000").marked(E, 0, "000");
}

/// Neither operand at moment c, or P alone where nothing leads on in no time.
#[test]
fn lost_at_moment_c() {
    let arrows = [[0, 1, 2, 2], [0, 2, 2, 2], [1, 1, 1, 1], [2, 2, 1, 1]];
    Case::of(&[P, 0, Q], &arrows).marked(A, 2, "000").marked(E, 2, "100");
    Case::of(&[P, P, Q], &arrows).marked(A, 2, "000").marked(E, 2, "100");
    Case::of(&[P, Q, Q], &arrows).marked(A, 2, "100").marked(E, 2, "100");
    Case::of(&[P, 0, 0], &arrows).marked(A, 2, "000").marked(E, 2, "000");
}

#[test]
fn slots_without_end() {
    let case = Case::of(&[P, Q], &[[0, 1, 0, NO_END], [1, 1, 1, 1]]);
    case.marked(E, 0, "11").marked(A, 0, "01");
    for c in [1, 128, 254, 255] {
        case.marked(E, c, "10").marked(A, c, "00").true_until(A, EXACTLY, c, "01");
    }
    let from_255 = Case::of(&[P, Q], &[[0, 1, 255, NO_END], [1, 1, 1, 1]]);
    from_255.marked(E, 254, "00").marked(E, 255, "10").marked(A, 255, "00");
    let from_256 = Case::of(&[P, Q], &[[0, 1, 256, NO_END], [1, 1, 1, 1]]);
    from_256.marked(E, 0, "01").marked(E, 255, "00").marked(A, 255, "00");
}

/// Every minute comes, at whatever state; by twos only every other one.
#[test]
fn every_minute_comes() {
    for (slot, odd) in [([1, 1], "11"), ([0, 1], "11"), ([2, 2], "00"), ([0, 2], "00")] {
        let case = Case::of(&[P | Q; 2], &[[0, 1, slot[0], slot[1]], [1, 0, slot[0], slot[1]]]);
        case.marked(A, 0, "11").marked(A, 255, odd).marked(A, 3, odd);
        case.marked(E, 254, "11").marked(E, 255, if slot == [2, 2] { "00" } else { "11" });
    }
}

/// A way through all 256 states within moment 255.
#[test]
fn the_largest_line() {
    let mut arrows: Vec<ArrowFields> = (0..255).map(|s| [s, s + 1, 0, 0]).collect();
    arrows.extend([[0, 0, 1, 1], [255, 255, 1, 1]]);
    let mut labels = [P; 256];
    labels[255] = Q;
    let case = Case::of(&labels, &arrows);
    case.marked(E, 255, &format!("1{}", "0".repeat(255))).marked(E, 0, &"1".repeat(256));
    case.marked(A, 255, &"0".repeat(256)).marked(A, 0, &format!("0{}", "1".repeat(255)));
}

/// An exact until within others, and others within it.
#[test]
fn mixed_bounds() {
    let nodes = [TRUE, label(2), (E, EXACTLY, 0, 1, 14), TRUE, label(2), (A, AT_MOST, 3, 4, 13), (4, 0, 2, 5, 0)];
    assert_eq!(last_marks(&short(), &nodes), "111");
    let within = [TRUE, TRUE, label(2), (E, EXACTLY, 1, 2, 14), (E, AT_LEAST, 0, 3, 25)];
    assert_eq!(last_marks(&short(), &within), "111");
    let exact_of = [TRUE, TRUE, label(2), (E, AT_MOST, 1, 2, 0), (E, EXACTLY, 0, 3, 5)];
    assert_eq!(last_marks(&short(), &exact_of), "100");
}
