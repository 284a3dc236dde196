//! A model of document 01 in plain Rust, written from its text: a file or two for each of its headings, one for what goes
//! beyond it and one for the comma lines of document 02, every call with the arguments, the answer and the lent bytes
//! of the exported one. It knows nothing of the library but the shapes of the answers.

pub mod blocks;
pub mod book;
pub mod entries;
pub mod line;
pub mod machine;
pub mod matching;
pub mod rows;
pub mod table;
pub mod texts;

pub use blocks::{counts, hold_rows, pair_rows};
pub use book::{feed, fresh, restore, save};
pub use line::feed_line;
pub use rows::{event_name, hold_row, pair_row};
pub use table::compile;
pub use texts::{operate, operate_name, signal};

/// A value, or the number of the refusal.
pub type Answer<T> = Result<T, u32>;

/// 01's number of an answer.
fn number<T>(answer: &Answer<T>) -> u32 {
    match answer {
        Ok(_) => 0,
        Err(number) => *number,
    }
}

/// Refuses with a number unless a condition holds.
fn require(holds: bool, number: u32) -> Answer<()> {
    if holds { Ok(()) } else { Err(number) }
}

/// Writes bytes to the start of a buffer.
fn put(buffer: &mut [u8], bytes: &[u8]) {
    buffer[..bytes.len()].copy_from_slice(bytes);
}

/// The bytes of a field of N bytes.
fn bytes_at<const N: usize>(bytes: &[u8], at: usize) -> [u8; N] {
    bytes[at..at + N].try_into().unwrap()
}

fn u32_at(bytes: &[u8], at: usize) -> u32 {
    u32::from_le_bytes(bytes_at(bytes, at))
}
