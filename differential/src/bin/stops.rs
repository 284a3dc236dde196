//! Compares the stop text that the library shows with the Rust's `{}` of that double.
//!
//!     stops [--step N] [--threads N]
//!
//! A pair that was closed by the stop is shown under the table with each stop: every multiple of the step from 0 to
//! 100,000,000 hundredths, and the first and the last 20,000. Some of the texts are compiled again as a stop field. The
//! exit code is 1 where a text or what is read back differs.

use position_book::raw;
use std::fmt::Write;
use std::process::ExitCode;
use std::sync::Mutex;
use std::sync::atomic::{AtomicU32, Ordering};
use std::thread;

/// The largest stop, in hundredths of a basis point.
const LAST: u32 = 100_000_000;
/// So many of the first and of the last stops are always compared.
const ENDS: u32 = 20_000;
/// Of the others those that this number divides are read back.
const READ_BACK: u32 = 101;
/// So many stops are taken by a thread at a time.
const BLOCK: u32 = 100_000;
/// Where the stop stands in a table.
const STOP: std::ops::Range<usize> = 12..16;
/// The most differences that are told.
const TOLD: usize = 10;

const BEFORE: &str = "o@is_match -> 平多@";
const BEHIND: &str = "BP止损";

struct Options {
    step: u32,
    threads: u32,
}

/// What was compared, and the differences that are told.
#[derive(Default)]
struct Found {
    shown: u64,
    read: u64,
    differences: u64,
    told: Vec<String>,
}

/// A table and a book with one pair, which the stop closed; buffers that are used for every stop.
struct Shop {
    table: Vec<u8>,
    book: Vec<u8>,
    row: Vec<u8>,
    again: Vec<u8>,
    expected: String,
    sheet: String,
}

fn main() -> ExitCode {
    let options = match options() {
        Ok(options) => options,
        Err(why) => {
            eprintln!("stops: {why}");
            return ExitCode::from(2);
        }
    };
    let (next, all) = (AtomicU32::new(0), Mutex::new(Found::default()));
    thread::scope(|scope| {
        for _ in 0..options.threads {
            scope.spawn(|| take_blocks(options.step, &next, &all));
        }
    });
    let found = all.into_inner().expect("no thread panicked");
    for line in &found.told {
        println!("{line}");
    }
    println!(
        "{} stop texts, {} read back, {} differences",
        found.shown, found.read, found.differences
    );
    ExitCode::from(u8::from(found.differences > 0 || found.read == 0))
}

fn options() -> Result<Options, String> {
    let mut options = Options {
        step: 1,
        threads: 2,
    };
    let mut arguments = std::env::args().skip(1);
    while let Some(name) = arguments.next() {
        let value = arguments.next().and_then(|value| value.parse().ok());
        let value = value.filter(|value| *value > 0);
        let value = value.ok_or(format!("{name}: a number above 0 is missing"))?;
        match name.as_str() {
            "--step" => options.step = value,
            "--threads" => options.threads = value,
            _ => return Err(format!("{name}: only --step and --threads are known")),
        }
    }
    Ok(options)
}

/// Takes blocks of stops until there are no more.
fn take_blocks(step: u32, next: &AtomicU32, all: &Mutex<Found>) {
    let mut shop = Shop::new();
    let mut found = Found::default();
    loop {
        let start = next.fetch_add(BLOCK, Ordering::Relaxed);
        if start > LAST {
            break;
        }
        for stop in start..LAST.min(start + BLOCK - 1) + 1 {
            let is_end = stop < ENDS || stop > LAST - ENDS;
            if is_end || stop % step == 0 {
                shop.show(stop, &mut found);
                if is_end || stop % READ_BACK == 0 {
                    shop.read_back(stop, &mut found);
                }
            }
        }
    }
    all.lock().expect("no thread panicked").join(found);
}

impl Found {
    fn differ(&mut self, what: String) {
        self.differences += 1;
        if self.told.len() < TOLD {
            self.told.push(what);
        }
    }

    fn join(&mut self, other: Found) {
        self.shown += other.shown;
        self.read += other.read;
        self.differences += other.differences;
        self.told.extend(other.told);
        self.told.truncate(TOLD);
    }
}

impl Shop {
    /// A long that was opened at 2 and stopped at 1, at a loss of 5,000 basis points, under a stop of 0.
    fn new() -> Shop {
        let mut table = vec![0; raw::TABLE_LENGTH];
        let mut book = vec![0; raw::book_length(2)];
        let sheet = "P|||0|9|0|1\nO|LO|o\nA|k_k_k_v_v_v_0\n";
        assert_eq!(raw::compile(sheet.as_bytes(), &mut table), 0);
        assert_eq!(raw::fresh(&mut book), 0);
        let opened = raw::feed(&table, &mut book, 1, 1, 0, 2.0, b"k_k_k|v_v_v_0\n");
        let closed = raw::feed(&table, &mut book, 2, 2, 0, 1.0, b"");
        assert_eq!((opened.pos, closed.pos, closed.decision), (1, 0, 2));
        Shop {
            table,
            book,
            row: vec![0; raw::ROW_BUFFER],
            again: vec![0; raw::TABLE_LENGTH],
            expected: String::new(),
            sheet: String::new(),
        }
    }

    /// The pair's sequence under a stop, set against the Rust's text.
    fn show(&mut self, stop: u32, found: &mut Found) {
        self.table[STOP].copy_from_slice(&stop.to_le_bytes());
        let answer = raw::pair_row(&self.table, &self.book, 0, &mut self.row);
        self.expected.clear();
        let points = f64::from(stop) / 100.0;
        write!(self.expected, "{BEFORE}{points}{BEHIND}").expect("a text grows");
        let shown = &self.row[..answer.sequence];
        found.shown += 1;
        if answer.number != 0 || shown != self.expected.as_bytes() {
            let shown = String::from_utf8_lossy(shown);
            let (number, expected) = (answer.number, &self.expected);
            found.differ(format!("{stop}: {number}, {shown} and not {expected}"));
        }
    }

    /// The stop text that was just shown, compiled as a stop field: the table's stop must be the same again.
    fn read_back(&mut self, stop: u32, found: &mut Found) {
        let end = self.expected.len() - BEHIND.len();
        let text = &self.expected[BEFORE.len()..end];
        self.sheet.clear();
        write!(self.sheet, "P|||0|9|{text}|1\n").expect("a text grows");
        let number = raw::compile(self.sheet.as_bytes(), &mut self.again);
        found.read += 1;
        if number != 0 || self.again[STOP] != stop.to_le_bytes() {
            let read = &self.again[STOP];
            found.differ(format!("{stop}: {text} is read as {read:?}, {number}"));
        }
    }
}
