//! A line of pairs of states that hand a job back and forth before it goes on to the next pair. Whole loops can be taken in
//! no time.

use crate::bytes::Arrow;

/// From each state one arrow leads on, one to the other of its pair, one to itself, and the others on. Within a pair of the
/// first half handing takes 0 to 3 minutes each way: there one may wait for ever. In the second half it takes none, nor does
/// an arrow to itself anywhere: time passes on none of these loops, but each can be left. From every other state there, but
/// the last, no arrow takes time.
pub fn arrows(n: usize, m: usize) -> Vec<Arrow> {
    let mut arrows = Vec::with_capacity(m);
    for s in 0..n {
        let copies = (s + 1) * m / n - s * m / n;
        arrows.extend((0..copies).map(|copy| arrow(n, s, copy)));
    }
    arrows
}

fn arrow(n: usize, state: usize, copy: usize) -> Arrow {
    let (end, fewest, most) = match copy {
        1 if state < n / 2 => (state ^ 1, 0, 3),
        1 => (state ^ 1, 0, 0),
        2 => (state, 0, 0),
        _ => {
            let (next, fewest) = (state / 2 * 2 + 2 + copy % 2, 1 + (state + copy) as u16 % 5);
            if instant(n, state) {
                (next, 0, 0)
            } else {
                (next, fewest, fewest + 10)
            }
        }
    };
    Arrow { start: state as u16, end: end.min(n - 1) as u16, fewest, most }
}

/// Whether no arrow from the state takes time.
fn instant(n: usize, state: usize) -> bool {
    state >= n / 2 && state % 2 == 1 && state + 1 < n
}
