//! Damaged copies of bytes.

use crate::Rng;
use std::ops::Range;

/// Bytes that mean something in the texts, and some that no UTF-8 has.
const MARKS: &[u8] = b"|\n_-+#@.,0POXAYNBS\x00\x80\xc0\xed\xf5\xff";

/// A copy with one to three faults.
pub fn damage(rng: &mut Rng, bytes: &[u8]) -> Vec<u8> {
    let mut copy = bytes.to_vec();
    for _ in 0..1 + rng.below(3) {
        fault(rng, &mut copy);
    }
    copy
}

fn fault(rng: &mut Rng, bytes: &mut Vec<u8>) {
    let range = some_range(rng, bytes.len());
    let place = rng.below(bytes.len() + 1);
    match rng.below(7) {
        0 if place < bytes.len() => bytes[place] ^= 1 << rng.below(8),
        1 if place < bytes.len() => bytes[place] = rng.bits() as u8,
        2 => drop(bytes.drain(range)),
        3 => bytes.insert(place, *rng.pick(MARKS)),
        4 => bytes.truncate(place),
        5 => splice(bytes, place..place, range),
        _ => {
            let length = range.len().min(bytes.len() - place);
            splice(bytes, place..place + length, range);
        }
    }
}

/// Puts a copy of one range of the bytes in the place of another.
fn splice(bytes: &mut Vec<u8>, into: Range<usize>, from: Range<usize>) {
    let part = bytes[from].to_vec();
    bytes.splice(into, part);
}

/// A range of at most 40 bytes.
fn some_range(rng: &mut Rng, length: usize) -> Range<usize> {
    let start = rng.below(length + 1);
    let most = (length - start).min(40);
    start..start + rng.below(most + 1)
}
