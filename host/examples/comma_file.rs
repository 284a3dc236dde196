//! Feeds a book the bars of the exchange's comma file, and lists its trades: what a keeper's program starts from.
//!
//!     cargo run --release --example comma_file -- SHEET BARS SIGNALS
//!
//! SHEET is a position sheet. BARS has a line `id,YYYY-MM-DD HH:MM:SS+HH:MM,price` for each bar, earlier ones first.
//! SIGNALS has a line `id|key|value` for each signal, with its bar's id as BARS writes it, in any order. A bar that is
//! refused is told on standard error, and left out. `../examples/comma` has the season as such files.

use position_book::{Book, Table};
use std::collections::HashMap;
use std::error::Error;
use std::{env, fs};

fn main() -> Result<(), Box<dyn Error>> {
    let paths: Vec<String> = env::args().skip(1).collect();
    let [sheet, bars, signals] = &paths[..] else {
        return Err("comma_file SHEET BARS SIGNALS".into());
    };
    let table = Table::compile(read(sheet)?).map_err(|why| format!("{sheet}: {why}"))?;
    let (bars, signals) = (read(bars)?, read(signals)?);
    let mut signals_of: HashMap<&[u8], Vec<u8>> = HashMap::new();
    for line in lines(&signals) {
        let (id, signal) = cut(line, b'|');
        let text = signals_of.entry(id).or_default();
        text.extend([signal, b"\n"].concat());
    }
    let mut book = Book::fresh(lines(&bars).count().max(1))?;
    for (number, line) in (1..).zip(lines(&bars)) {
        let (id, _) = cut(line, b',');
        let signals = signals_of.get(id).map_or(&[][..], Vec::as_slice);
        if let Err(why) = book.feed_line(&table, line, signals) {
            eprintln!("line {number}: {why}");
        }
    }
    for pair in book.pairs(&table)? {
        let bp = pair.bp.map(|bp| format!("{bp:.2} bp"));
        println!(
            "{:?} {} at {} to {} at {}, {}: {}",
            pair.side,
            pair.opened,
            pair.from,
            pair.closed,
            pair.to,
            bp.as_deref().unwrap_or("no yield"),
            pair.sequence
        );
    }
    Ok(())
}

fn read(path: &str) -> Result<Vec<u8>, String> {
    fs::read(path).map_err(|why| format!("{path}: {why}"))
}

/// The lines of a text without their LF, which alone ends one: a CR stays, and a bar is refused for it.
fn lines(text: &[u8]) -> impl Iterator<Item = &[u8]> {
    let lines = text.split_inclusive(|byte| *byte == b'\n');
    lines.map(|line| line.strip_suffix(b"\n").unwrap_or(line))
}

/// A line's first field, and what stands behind its mark.
fn cut(line: &[u8], mark: u8) -> (&[u8], &[u8]) {
    let mut parts = line.splitn(2, |byte| *byte == mark);
    (parts.next().unwrap_or(&[]), parts.next().unwrap_or(&[]))
}
