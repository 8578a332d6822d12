//! Charts with several ways from every state, and an until over two labels: the fewest steps are not the fewest minutes,
//! and the first operand decides which ways there are.

use crate::bytes::chart::{arrow, Chart, Slots};
use crate::bytes::rule::{node, plain, Node, A, AT_LEAST, AT_MOST, E, EXACTLY, LABEL};
use crate::random::rng::Rng;
use crate::random::timelocks::let_time_pass;

fn chart(rng: &mut Rng) -> Chart {
    let n = rng.within(3, 10);
    let m = n * rng.within(2, 4);
    let slots = Slots::random(rng);
    let mut arrows = Vec::with_capacity(m);
    for j in 0..m {
        let (fewest, most) = slots.slot(rng);
        // A slow arrow, beside which a longer way is quicker.
        let slow = rng.percent(25) && most < 1_000;
        let more = if slow { rng.within(5, 20) as u16 } else { 0 };
        arrows.push(arrow(j % n, rng.below(n), fewest + more, most + more));
    }
    // Label 0 at most states, label 1 at few.
    let rare = rng.pick(&[10, 30, 50]);
    let word = |rng: &mut Rng| u16::from(rng.percent(80)) | u16::from(rng.percent(rare)) << 1;
    let mut chart = Chart { labels: (0..n).map(|_| word(rng)).collect(), arrows };
    let_time_pass(rng, &mut chart);
    rng.shuffle(&mut chart.arrows);
    chart
}

pub fn random(rng: &mut Rng) -> (Chart, Vec<Node>) {
    let (operation, kind) =
        rng.pick(&[(E, AT_MOST), (E, AT_LEAST), (E, AT_LEAST), (E, EXACTLY), (E, EXACTLY), (A, AT_MOST)]);
    let c = match (operation, kind) {
        (E, AT_MOST) => rng.within(5, 40),
        _ => rng.below(50) / rng.within(1, 8),
    };
    let until = node(operation, kind, 0, 1, c);
    (chart(rng), vec![plain(LABEL, 0, 0), plain(LABEL, 1, 0), until])
}
