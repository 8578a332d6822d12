//! The longest files that are accepted, and those of which only the first bytes are read: what they state decides.

use crate::bytes::chart::{arrow, Arrow, Chart, NO_END};
use crate::bytes::rule::{self, node, plain, Node, AT_MOST, E, EXACTLY, LABEL, NOT, TRUE};
use crate::named::expected::{just_true, short};
use crate::named::rules::nots;
use crate::programs::limits::{add, calls, files, List, SHORT_CALLS};

/// Cut or filled up with zeros to a length, and stating one.
fn stating(mut bytes: Vec<u8>, length: usize, stated: u32) -> Vec<u8> {
    bytes.resize(length, 0);
    bytes[1..5].copy_from_slice(&stated.to_be_bytes());
    bytes
}

/// A ring of all states, eight arrows of different slots side by side; label 0 at the last state.
fn longest_chart() -> Chart {
    let most = |j: usize| if j < 256 { NO_END } else { (j / 256) as u16 };
    let arrows = (0..2_048).map(|j| arrow(j % 256, (j + 1) % 256, 1, most(j))).collect();
    let mut labels = vec![0; 256];
    labels[255] = 1;
    Chart { labels, arrows }
}

/// E(true until label 0) with a bound of 100, then not after not.
fn longest_rule(kind: u8) -> Vec<Node> {
    let mut nodes = vec![plain(TRUE, 0, 0), plain(LABEL, 0, 0), node(E, kind, 0, 1, 100)];
    nodes.extend((3..64).map(|t| plain(NOT, t - 1, 0)));
    nodes
}

/// State 255 is 100 minutes away from state 155, or more; it is itself come to again after 256.
fn longest_listing(kind: u8) -> String {
    let (zeros, ones) = (|n| "0".repeat(n), |n| "1".repeat(n));
    let mut text = format!("states 256 nodes 64\n0 {}\n1 {}1\n", ones(256), zeros(255));
    let last = kind == AT_MOST;
    for t in 2..64 {
        let [no, yes] = if t % 2 == 0 { ["0", "1"] } else { ["1", "0"] };
        let row = no.repeat(155) + &yes.repeat(100) + if last { yes } else { no };
        text += &format!("{t} {row}\n");
    }
    text
}

fn charts(list: &mut List) {
    let longest = longest_chart();
    let mut test = |length: usize, stated: u32, listing: &str, arrows: &[Arrow]| {
        let both = files(stating(longest.bytes(), length, stated), rule::bytes(&just_true()));
        add(list, &format!("chart of {length} bytes stating {stated}"), both, listing, calls(&[], arrows));
    };
    let accepted = format!("states 256 nodes 1\n0 {}\n", "1".repeat(256));
    test(16_905, 16_905, &accepted, &longest.arrows);
    test(16_904, 16_904, "refused 6 at 0 1\n", &[]);
    test(16_904, 16_905, "refused 3 at 0 1\n", &[]);
    for length in [16_906, 16_907, 17_000, 40_000] {
        test(length, 16_905, "refused 3 at 0 1\n", &[]);
        test(length, 16_906, "refused 6 at 0 1\n", &[]);
        test(length, 16_907, "refused 3 at 0 1\n", &[]);
        test(length, 17_000, "refused 3 at 0 1\n", &[]);
    }
}

fn rules(list: &mut List) {
    let mut test = |length: usize, stated: u32, listing: &str| {
        let both = files(short().bytes(), stating(rule::bytes(&nots(64)), length, stated));
        add(list, &format!("rule of {length} bytes stating {stated}"), both, listing, SHORT_CALLS.into());
    };
    let row = |t: usize| format!("{t} {}\n", if t % 2 == 0 { "111" } else { "000" });
    let accepted = format!("states 3 nodes 64\n{}", (0..64).map(row).collect::<String>());
    test(519, 519, &accepted);
    test(518, 518, "refused 13 at 0 3\n");
    test(518, 519, "refused 12 at 0 3\n");
    for length in [520, 521, 600, 20_000] {
        test(length, 519, "refused 12 at 0 3\n");
        test(length, 520, "refused 13 at 0 3\n");
        test(length, 521, "refused 12 at 0 3\n");
        test(length, 600, "refused 12 at 0 3\n");
    }
}

fn both_long(list: &mut List) {
    let (chart, rule) = (longest_chart(), rule::bytes(&longest_rule(AT_MOST)));
    for (name, kind) in [("the longest chart and rule", AT_MOST), ("the longest, and an exact bound", EXACTLY)] {
        let both = files(chart.bytes(), rule::bytes(&longest_rule(kind)));
        add(list, name, both, &longest_listing(kind), calls(&[], &chart.arrows));
    }
    let longer = stating(rule, 520, 519);
    let both = files(chart.bytes(), longer.clone());
    add(list, "the longest chart, a rule too long", both, "refused 12 at 0 3\n", calls(&[], &chart.arrows));
    let both = files(stating(chart.bytes(), 16_906, 16_905), longer);
    add(list, "chart and rule too long", both, "refused 3 at 0 1\n", calls(&[], &[]));
}

pub fn all(list: &mut List) {
    charts(list);
    rules(list);
    both_long(list);
}
