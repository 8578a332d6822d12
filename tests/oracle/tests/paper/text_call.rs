//! Calls of read rule and write rule, what they keep looked at as well.

use crate::told::{told, Told};
use oracle::{read_rule, write_rule, Written};

/// Room for the longest text, and so for the longest rule too.
const ROOM: usize = 532;

/// The bytes written, or number, place and entry. An output of 5s is lent, and stays so past what is written.
fn call(call: fn(&[u8], &mut [u8]) -> Written, given: &[u8], room: usize) -> Result<Vec<u8>, Told> {
    let mut output = vec![5; room];
    let Written { outcome, written } = call(given, &mut output);
    assert!(output[written..].iter().all(|&byte| byte == 5));
    match told(outcome) {
        (0, 0, 0) => Ok(output[..written].to_vec()),
        refused => {
            assert_eq!(written, 0);
            Err(refused)
        }
    }
}

pub fn read_into(text: impl AsRef<[u8]>, room: usize) -> Result<Vec<u8>, Told> {
    call(read_rule, text.as_ref(), room)
}

pub fn read(text: impl AsRef<[u8]>) -> Result<Vec<u8>, Told> {
    read_into(text, ROOM)
}

pub fn write_into(rule: &[u8], room: usize) -> Result<Vec<u8>, Told> {
    call(write_rule, rule, room)
}

pub fn write(rule: &[u8]) -> Result<Vec<u8>, Told> {
    write_into(rule, ROOM)
}
