//! Numbers and lengths at and beyond the limits.

use inputs::{LAST_ID, LAST_INSTANT, LAST_OFFSET, Rng};

/// An i64 of any size, often beside one of the limits that document 01 names.
pub fn integer(rng: &mut Rng) -> i64 {
    let limits = [
        0,
        LAST_ID,
        LAST_INSTANT,
        LAST_OFFSET,
        -LAST_OFFSET,
        1 << 32,
        i64::MAX,
        i64::MIN,
    ];
    match rng.below(8) {
        0 => rng.bits() as i64,
        _ => rng.pick(&limits).wrapping_add(rng.between(-1, 1)),
    }
}

/// The bits of a double: NaNs with their payloads, infinities, zeros, subnormals, or any.
pub fn double(rng: &mut Rng) -> u64 {
    let sizes = [
        0,
        1,
        0x000f_ffff_ffff_ffff,
        0x0010_0000_0000_0000,
        0x3ff0_0000_0000_0000,
        0x7fef_ffff_ffff_ffff,
        0x7ff0_0000_0000_0000,
        0x7ff0_0000_0000_0001,
        0x7ff8_0000_0000_0000,
        0x7fff_ffff_ffff_ffff,
    ];
    match rng.below(4) {
        0 => rng.bits(),
        _ => *rng.pick(&sizes) | (rng.bits() & 1) << 63,
    }
}

/// A buffer of a length, filled with anything.
pub fn buffer(rng: &mut Rng, length: usize) -> Vec<u8> {
    let fill = rng.bits() as u8;
    (0..length).map(|n| fill.wrapping_add(n as u8)).collect()
}

/// A buffer in another length: none, one less, one more, or one that 01 names beside it.
pub fn resized(rng: &mut Rng, bytes: &[u8]) -> Vec<u8> {
    let length = bytes.len();
    let lengths = [
        0,
        length.saturating_sub(1),
        length + 1,
        length + 64,
        96,
        159,
        160,
        255,
        2_047,
    ];
    let mut copy = bytes.to_vec();
    copy.resize(*rng.pick(&lengths), 0);
    copy
}
