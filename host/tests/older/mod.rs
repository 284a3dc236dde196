//! What earlier versions stored: the bytes of tables and of images, in files beside this one.

use std::fs;
use std::path::Path;

/// The bytes of a file: hexadecimal digits, remarks behind `#`.
pub fn stored(name: &str) -> Vec<u8> {
    let path = Path::new(env!("CARGO_MANIFEST_DIR")).join("tests/older");
    let text = fs::read_to_string(path.join(name)).unwrap();
    let digits: String = text.lines().filter(|line| !line.starts_with('#')).collect();
    let pair = |at: usize| u8::from_str_radix(&digits[at..at + 2], 16).unwrap();
    (0..digits.len()).step_by(2).map(pair).collect()
}

/// A table of a file, with zeros behind the stored bytes.
pub fn table(name: &str) -> Vec<u8> {
    let mut table = stored(name);
    table.resize(position_book::raw::TABLE_LENGTH, 0);
    table
}
