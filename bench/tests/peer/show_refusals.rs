//! Refusals 60 to 62 of show, those of check before them, and what each leaves in the tables.

use crate::common::{arrow, node, show, told, Ask, Told, LENT_MARK, LENT_NUMBER};
use bench::bytes::{self, Node};

fn chart() -> Vec<u8> {
    bytes::chart(&[1, 2, 4], &[arrow(0, 1, 5, 10), arrow(1, 2, 0, 4), arrow(2, 0, 20, 65_535)])
}

/// True until L2, within 5 minutes where there is a choice.
fn rule(operation: u8, kind: u8, c: u16) -> Vec<u8> {
    bytes::rule(&[node(0, 0, 0, 0, 0), node(1, 0, 2, 0, 0), node(operation, kind, 0, 1, c)])
}

/// The last node at state 0, with all that an accepted call asks for.
const WHOLE: Ask = Ask { node: 2, state: 0, marks: 9, scratch: 771, output: 18 };

/// What is told, after what the call leaves is looked at: so many numbers are 0, and marks are written or not.
fn answer(chart: &[u8], rule: &[u8], ask: Ask, cleared: usize, marked: bool) -> Told {
    let shown = show(chart, rule, ask);
    assert!(shown.scratch[..cleared].iter().all(|&number| number == 0));
    assert!(shown.scratch[cleared..].iter().all(|&number| number == LENT_NUMBER));
    assert!(shown.marks.iter().all(|&mark| (mark == LENT_MARK) != marked));
    assert!(shown.output[shown.answer.written..].iter().all(|&byte| byte == LENT_MARK));
    assert_eq!(shown.answer.written, if shown.answer.outcome.number == 0 { 18 } else { 0 });
    told(shown.answer.outcome)
}

#[test]
fn no_such_mark() {
    let refused = |rule: &[u8], ask| assert_eq!(answer(&chart(), rule, ask, 12, true), (60, 0, 3));
    let within = rule(5, 1, 5);
    assert_eq!(answer(&chart(), &within, WHOLE, 771, true), (0, 0, 0));
    refused(&within, Ask { node: 3, ..WHOLE });
    refused(&within, Ask { node: usize::MAX, ..WHOLE });
    refused(&within, Ask { state: 3, ..WHOLE });
    refused(&within, Ask { state: usize::MAX, ..WHOLE });
    refused(&within, Ask { node: 0, ..WHOLE });
    refused(&within, Ask { node: 1, ..WHOLE });
    refused(&rule(5, 1, 4), WHOLE);
    refused(&rule(6, 1, 14), WHOLE);
    // At least 1,000 minutes: neither mark of A has a run to show.
    refused(&rule(6, 2, 1_000), WHOLE);
    refused(&rule(6, 2, 0), WHOLE);
    // Before 61 and 62.
    refused(&within, Ask { node: 3, scratch: 12, output: 0, ..WHOLE });
}

/// With an exact bound, check asks for 256n numbers before show asks for 257n, and leaves as many at 0.
#[test]
fn exact_bounds() {
    let exact = rule(5, 3, 5);
    let told = |ask, cleared, marked| answer(&chart(), &exact, ask, cleared, marked);
    assert_eq!(told(WHOLE, 771, true), (0, 0, 0));
    assert_eq!(told(Ask { scratch: 767, ..WHOLE }, 0, false), (18, 0, 5));
    assert_eq!(told(Ask { scratch: 768, ..WHOLE }, 768, true), (61, 0, 5));
    assert_eq!(told(Ask { scratch: 770, output: 0, ..WHOLE }, 768, true), (61, 0, 5));
    assert_eq!(told(Ask { state: 1, scratch: 780, ..WHOLE }, 768, true), (60, 0, 3));
    assert_eq!(told(Ask { output: 17, scratch: 780, ..WHOLE }, 771, true), (62, 0, 5));
    assert_eq!(answer(&chart(), &rule(6, 3, 5), WHOLE, 768, true), (60, 0, 3));
    assert_eq!(answer(&chart(), &rule(5, 3, 256), WHOLE, 0, false), (14, 2, 3));
}

#[test]
fn short_buffers() {
    let rule = rule(5, 1, 5);
    let refused = |ask, cleared| answer(&chart(), &rule, ask, cleared, true);
    assert_eq!(refused(Ask { scratch: 770, output: 0, ..WHOLE }, 12), (61, 0, 5));
    assert_eq!(refused(Ask { scratch: 12, ..WHOLE }, 12), (61, 0, 5));
    assert_eq!(refused(Ask { output: 17, ..WHOLE }, 771), (62, 0, 5));
    assert_eq!(refused(Ask { output: 0, scratch: 773, ..WHOLE }, 771), (62, 0, 5));
    assert_eq!(refused(Ask { output: 2_000, ..WHOLE }, 771), (0, 0, 0));
}

#[test]
fn check_comes_first() {
    let far = Ask { node: 9, state: 9, output: 0, ..WHOLE };
    let rule = rule(5, 1, 5);
    assert_eq!(answer(&[], &rule, far, 0, false), (1, 0, 1));
    assert_eq!(answer(&chart(), &[], far, 0, false), (10, 0, 3));
    assert_eq!(answer(&chart(), &rule, Ask { marks: 8, scratch: 11, ..far }, 0, false), (17, 0, 5));
    assert_eq!(answer(&chart(), &rule, Ask { scratch: 11, ..far }, 0, false), (18, 0, 5));
    let nodes: [Node; 1] = [node(0, 0, 0, 0, 0)];
    let still = bytes::chart(&[0], &[arrow(0, 0, 0, 0)]);
    assert_eq!(answer(&still, &bytes::rule(&nodes), far, 4, false), (19, 0, 1));
}
