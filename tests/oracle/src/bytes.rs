//! Big-endian numbers out of lent bytes.
//!
//! What lies past the end reads as 0: each row of the refusal table is then safe on any bytes by itself, except 19, which
//! is asked only after rows 1 to 9.

pub fn byte_at(bytes: &[u8], at: usize) -> u8 {
    bytes.get(at).copied().unwrap_or(0)
}

pub fn word_at(bytes: &[u8], at: usize) -> u16 {
    u16::from_be_bytes([byte_at(bytes, at), byte_at(bytes, at + 1)])
}

pub fn version(bytes: &[u8]) -> u8 {
    byte_at(bytes, 0)
}

/// Bytes 1 to 4; 64 bits wide so that the comparison with a slice's length is exact.
pub fn stated_length(bytes: &[u8]) -> u64 {
    u64::from(word_at(bytes, 1)) << 16 | u64::from(word_at(bytes, 3))
}

pub fn states_real_length(bytes: &[u8]) -> bool {
    stated_length(bytes) == bytes.len() as u64
}
