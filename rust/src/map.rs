//! Map check.

use crate::{call, Outcome};

/// Whether the detail chart is one under the overview chart, by the map.
///
/// ```
/// let chart = [1, 0, 0, 0, 19, 0, 1, 0, 1, 0, 0, 0, 0, 0, 0, 0, 1, 0, 1]; // one state, an arrow of 1 to 1 minutes
/// let map = [1, 0, 0, 0, 9, 0, 1, 0, 0]; // state 0 stands for overview state 0
/// assert!(doilystrand::map_check(&chart, &chart, &map).is_accepted());
/// assert_eq!(doilystrand::map_check(&chart, &[], &map).to_string(), "refused 1 at 0 2"); // 2: of the overview
/// ```
#[must_use = "it only answers"]
pub fn map_check(detail: &[u8], overview: &[u8], map: &[u8]) -> Outcome {
    // SAFETY: each pointer comes with the length of its own slice, and all are only read.
    let outcome = unsafe {
        call::doilystrand_map_check(
            detail.as_ptr(),
            detail.len(),
            overview.as_ptr(),
            overview.len(),
            map.as_ptr(),
            map.len(),
        )
    };
    outcome.of_call(&[1..=9, 19..=23])
}
