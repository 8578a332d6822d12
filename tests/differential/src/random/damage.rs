//! Damage to bytes: cut, extended, flipped, and every field of a header.

use crate::random::rng::Rng;

/// Where the counts of a chart stand, and the one of a rule or a map.
pub const CHART_COUNTS: &[usize] = &[5, 7];
pub const ONE_COUNT: &[usize] = &[5];

fn cut(rng: &mut Rng, bytes: &mut Vec<u8>) {
    let length = match rng.below(4) {
        0 => bytes.len().saturating_sub(1),
        1 => bytes.len().saturating_sub(rng.within(1, 8)),
        2 => rng.below(10),
        _ => rng.below(bytes.len()),
    };
    bytes.truncate(length);
}

fn extend(rng: &mut Rng, bytes: &mut Vec<u8>) {
    let more = rng.pick(&[1, 1, 2, 8, 20]);
    for _ in 0..more {
        let byte = if rng.percent(50) { 0 } else { rng.next() as u8 };
        bytes.push(byte);
    }
}

fn flip(rng: &mut Rng, bytes: &mut [u8]) {
    if !bytes.is_empty() {
        let at = rng.below(bytes.len());
        bytes[at] ^= 1 << rng.below(8);
    }
}

fn overwrite(rng: &mut Rng, bytes: &mut [u8]) {
    if !bytes.is_empty() {
        let at = rng.below(bytes.len());
        bytes[at] = rng.pick(&[0, 1, 2, 15, 16, 127, 128, 255]);
    }
}

fn version(rng: &mut Rng, bytes: &mut [u8]) {
    if let Some(first) = bytes.first_mut() {
        *first = rng.pick(&[0, 2, 3, 129, 255]);
    }
}

/// The stated length, given the number that stands there already.
fn stated(rng: &mut Rng, bytes: &mut [u8]) {
    let Some(field) = bytes.get_mut(1..5) else {
        return;
    };
    let now = u32::from_be_bytes([field[0], field[1], field[2], field[3]]);
    let other = rng.next() as u32;
    let near = [now.wrapping_sub(1), now.wrapping_add(1), now.wrapping_add(256)];
    let far = [now ^ 0x8000_0000, now | 0x0001_0000, 0, u32::MAX, other];
    let wrong = if rng.percent(50) { rng.pick(&near) } else { rng.pick(&far) };
    field.copy_from_slice(&wrong.to_be_bytes());
}

fn count(rng: &mut Rng, bytes: &mut [u8], at: usize) {
    let Some(field) = bytes.get_mut(at..at + 2) else {
        return;
    };
    let now = u16::from_be_bytes([field[0], field[1]]);
    let near = [now.wrapping_sub(1), now.wrapping_add(1), now.wrapping_add(256)];
    let limits = [0, 1, 64, 65, 256, 257, 2_048, 2_049, 32_768, 65_535];
    let wrong = if rng.percent(40) { rng.pick(&near) } else { rng.pick(&limits) };
    field.copy_from_slice(&wrong.to_be_bytes());
}

/// States the real length, so that the tests after it are reached.
pub fn restate(bytes: &mut [u8]) {
    let length = (bytes.len() as u32).to_be_bytes();
    if let Some(field) = bytes.get_mut(1..5) {
        field.copy_from_slice(&length);
    }
}

/// One piece of damage; `counts` says where the header's counts stand.
pub fn bytes(rng: &mut Rng, bytes: &mut Vec<u8>, counts: &[usize]) {
    match rng.below(16) {
        0 | 1 => cut(rng, bytes),
        2 => extend(rng, bytes),
        3..=5 => flip(rng, bytes),
        6 => overwrite(rng, bytes),
        7 | 8 => version(rng, bytes),
        9 | 10 => stated(rng, bytes),
        11 | 12 => {
            let at = rng.pick(counts);
            count(rng, bytes, at);
        }
        13 => {
            cut(rng, bytes);
            restate(bytes);
        }
        14 => {
            extend(rng, bytes);
            restate(bytes);
        }
        _ => bytes.clear(),
    }
}
