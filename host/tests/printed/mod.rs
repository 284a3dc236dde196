//! What the run program prints of its input, through the safe API: shared by the tests of the seasons and of tables that
//! were stored.

mod rows;

use position_book::{Bar, Book, Instant, Refusal, Table};
use rows::{listed, sign};
use std::fmt::Write;
use std::fs;
use std::path::Path;

/// A file of the repository.
pub fn file(name: &str) -> String {
    let path = Path::new(env!("CARGO_MANIFEST_DIR")).join("..").join(name);
    fs::read_to_string(path).unwrap()
}

/// A season's sheet, and the lines of its bars.
pub fn season(input: &str) -> (&str, &str) {
    input.split_once("-\n").unwrap()
}

/// The bar of a line `B|id|instant|offset|price`.
fn bar(line: &str) -> Bar {
    let f: Vec<&str> = line.split('|').collect();
    Bar {
        id: f[1].parse().unwrap(),
        instant: Instant(f[2].parse().unwrap()),
        offset: f[3].parse().unwrap(),
        price: f64::from_bits(u64::from_str_radix(f[4], 16).unwrap()),
    }
}

/// The bars of the lines behind `-`, each with its signals.
pub fn bars(lines: &str) -> Vec<(Bar, String)> {
    let mut out: Vec<(Bar, String)> = Vec::new();
    for line in lines.lines() {
        match line.strip_prefix("S|") {
            Some(signal) => out.last_mut().unwrap().1 += &format!("{signal}\n"),
            None => out.push((bar(line), String::new())),
        }
    }
    out
}

/// What is printed of bars by a table: each bar's answer, then pairs and holds. After every bar the book is saved, and
/// restored into another.
pub fn printed(table: &Table, lines: &str) -> Result<String, Refusal> {
    let mut book = Book::fresh(900)?;
    let mut out = String::new();
    for (bar, signals) in bars(lines) {
        let number = match book.feed(table, bar, &signals) {
            Ok(decision) => {
                assert_eq!(
                    (decision.pos, decision.changed),
                    (book.pos(), book.changed())
                );
                0
            }
            Err(why) => why.number(),
        };
        let changed = u32::from(book.changed());
        writeln!(out, "F|{number}|{}|{changed}", sign(book.pos())).unwrap();
        book = Book::from_image(table, &book.save(table)?)?;
    }
    Ok(out + &listed(table, &book)?)
}
