//! Check and count mark a rule over lent buffers, with the same parameters and the same answer.

use crate::{call, Outcome};

type Call = unsafe extern "C" fn(*const u8, usize, *const u8, usize, *mut u8, usize, *mut u32, usize) -> Outcome;

/// One of the two below: there are no others, so that safe code may call it.
pub struct Marking(Call);

pub const CHECK: Marking = Marking(call::doilystrand_check);
pub const COUNT: Marking = Marking(call::doilystrand_count);

impl Marking {
    pub fn call(&self, chart: &[u8], rule: &[u8], marks: &mut [u8], scratch: &mut [u32]) -> Outcome {
        // SAFETY: each pointer comes with the length of its own slice, and the two that are written to overlap no other.
        unsafe {
            (self.0)(
                chart.as_ptr(),
                chart.len(),
                rule.as_ptr(),
                rule.len(),
                marks.as_mut_ptr(),
                marks.len(),
                scratch.as_mut_ptr(),
                scratch.len(),
            )
        }
    }
}
