//! A result at the front of its output.

use crate::answers::{Outcome, Written};

/// "last 66 output short"; a refusal keeps the output, a result the bytes past it.
pub fn to_front(result: Result<Vec<u8>, Outcome>, output: &mut [u8]) -> Written {
    let fitted = result.and_then(|bytes| {
        output.get_mut(..bytes.len()).ok_or(Outcome::at_0(66))?.copy_from_slice(&bytes);
        Ok(bytes.len())
    });
    match fitted {
        Ok(written) => Written { outcome: Outcome::SUCCESS, written },
        Err(outcome) => Written { outcome, written: 0 },
    }
}
