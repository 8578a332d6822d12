//! The loop by which the compiler touches each page of a large frame: it is read as one step, which takes all pages.

use crate::machine::{number, Does, Step};

const PAGE: i64 = 0x1000;

/// The steps of the loop, with the two before it that set where it ends.
const LENGTH: usize = 6;

/// Where the stack's end is copied, grown by a page, written to, and compared: the same in every such loop.
const SAME: [&str; 4] = ["mov %rsp,%r11", "sub $0x1000,%rsp", "movq $0x0,(%rsp)", "cmp %r11,%rsp"];

/// Each loop grows the stack where it begins, and does not jump. What only looks like one is left as it is: its jump
/// comes back to a stack that has grown, which is an error there.
pub fn join(steps: &mut [Step]) {
    for start in 0..steps.len() {
        let Some(by) = grown(steps, start) else { continue };
        steps[start + 2].does = Does::Grows(by);
        steps[start + LENGTH - 1].does = Does::Nothing;
    }
}

/// The bytes that a loop takes, if there is one from this step on.
fn grown(steps: &[Step], start: usize) -> Option<i64> {
    let [copy, end, grow, touch, compare, again] = steps.get(start..start + LENGTH)? else { return None };
    let same = [copy, grow, touch, compare].map(|step| step.text.as_str()) == SAME;
    let by = number(end.text.strip_prefix("sub $")?.strip_suffix(",%r11")?)?;
    // It ends only where the two are equal, which other numbers would step over.
    let ends = by > 0 && by % PAGE == 0 && again.text.starts_with("jne ");
    let back = again.does == Does::Jumps { to: grow.at, always: false };
    (same && ends && back && jumps_into(steps, end.at, again.at) == 1).then_some(by)
}

/// How many jumps lead to these places: one from elsewhere would come with another end in %r11.
fn jumps_into(steps: &[Step], first: u64, last: u64) -> usize {
    let into = |step: &&Step| matches!(step.does, Does::Jumps { to, .. } if (first..=last).contains(&to));
    steps.iter().filter(into).count()
}
