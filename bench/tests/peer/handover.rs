//! The family of jobs handed back and forth has the loops that it is named for, and its untils tell states apart.

use crate::common::{arrows_of, call};
use bench::bytes::Arrow;
use bench::{families, rules};

const N: usize = 256;

fn chart() -> Vec<u8> {
    families::chart("handover", N, 8 * N).unwrap()
}

/// Whether an arrow of that slot leads there.
fn leads(arrows: &[Arrow], start: usize, end: usize, slot: (u16, u16)) -> bool {
    let ends = |arrow: &Arrow| (usize::from(arrow.start), usize::from(arrow.end)) == (start, end);
    arrows.iter().any(|arrow| ends(arrow) && (arrow.fewest, arrow.most) == slot)
}

#[test]
fn pairs_hand_back_and_forth() {
    let arrows = arrows_of(&chart());
    for s in 0..N {
        let slot = if s < N / 2 { (0, 3) } else { (0, 0) };
        assert!(leads(&arrows, s, s ^ 1, slot), "{s}");
        assert!(leads(&arrows, s, s, (0, 0)), "{s}");
    }
}

/// From every other state of the second half, but the last, no arrow takes time: that time can go on is not seen at once.
#[test]
fn some_states_are_left_in_no_time_alone() {
    let arrows = arrows_of(&chart());
    for s in 0..N {
        let takes_time = arrows.iter().any(|arrow| usize::from(arrow.start) == s && arrow.most > 0);
        assert_eq!(takes_time, s < N / 2 || s % 2 == 0 || s == N - 1, "{s}");
    }
}

/// No way back, and one on: so each loop is left, for good, and the last state keeps all runs.
#[test]
fn all_lead_on_to_the_last_state() {
    let arrows = arrows_of(&chart());
    let pair = |state: u16| usize::from(state) / 2;
    assert!(arrows.iter().all(|arrow| pair(arrow.start) <= pair(arrow.end)));
    for s in 0..N as u16 - 2 {
        assert!(arrows.iter().any(|arrow| arrow.start == s && pair(arrow.end) > pair(s)), "{s}");
    }
    assert!(arrows.iter().any(|arrow| (arrow.start, arrow.end) == (255, 255) && arrow.fewest > 0));
}

/// At the first states of such a chart one may wait for ever, at the last ones not: A tells them apart.
#[test]
fn untils_tell_states_apart() {
    for (rule, first) in [("e-most", true), ("a-most", false), ("a-least", false)] {
        let bytes = rules::rule(rule).unwrap();
        let marks = call(&chart(), &bytes, 64 * N, 4 * N).marks;
        let untils = bytes[7..].chunks(8).zip(marks.chunks(N)).filter(|(node, _)| node[0] >= 5);
        let count = |row: &[u8]| row.iter().filter(|&&mark| mark == 1).count();
        let apart = untils.clone().filter(|(_, row)| (2..N - 2).contains(&count(row))).count();
        assert!(apart >= 6, "{rule}: {apart}");
        assert_eq!(untils.filter(|(_, row)| row[..N / 2].contains(&1)).count() > 6, first, "{rule}");
    }
}
