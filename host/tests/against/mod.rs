//! Comparing the library with the model: the calls, their arguments, and one comparison.

pub mod books;
mod boundaries;
mod evenings;
pub mod lines;
mod lots;
mod lots_kept;
pub mod numbers;
pub mod round;
mod scores;
mod stops;
pub mod tables;
pub mod texts;
mod trading_days;

use crate::model;
use position_book::raw;
use std::collections::BTreeMap;

/// The most bytes of a buffer that are shown.
const SHOWN: usize = 100_000;

/// All that the calls take. A call reads and writes what it is lent, and nothing else here.
#[derive(Clone, Default, PartialEq)]
pub struct Arguments {
    pub text: Vec<u8>,
    /// A comma line.
    pub line: Vec<u8>,
    pub table: Vec<u8>,
    pub book: Vec<u8>,
    pub image: Vec<u8>,
    pub buffer: Vec<u8>,
    pub id: i64,
    pub instant: i64,
    pub offset: i64,
    /// The price's bits.
    pub price: u64,
    pub index: i64,
    pub code: u32,
}

impl Arguments {
    /// Those of compiling a text.
    pub fn compiling(text: &[u8], table: Vec<u8>) -> Arguments {
        Arguments {
            text: text.to_vec(),
            table,
            ..Arguments::default()
        }
    }

    fn show(&self) -> String {
        let bytes = [
            ("text", &self.text),
            ("line", &self.line),
            ("table", &self.table),
            ("book", &self.book),
            ("image", &self.image),
            ("buffer", &self.buffer),
        ];
        let numbers = format!(
            "id {} instant {} offset {} price {:016x} index {} code {}",
            self.id, self.instant, self.offset, self.price, self.index, self.code
        );
        let lines = bytes.map(|(name, bytes)| format!("\n{name}, {}: {}", bytes.len(), hex(bytes)));
        numbers + &lines.concat()
    }
}

/// Bytes in hexadecimal, up to a length.
fn hex(bytes: &[u8]) -> String {
    let shown = bytes.iter().take(SHOWN);
    shown.map(|byte| format!("{byte:02x}")).collect()
}

/// An answer as numbers, the first of them 01's; doubles by their bits.
trait Words {
    fn words(&self) -> Vec<u64>;
}

impl Words for u32 {
    fn words(&self) -> Vec<u64> {
        vec![u64::from(*self)]
    }
}

/// Lists the fields of an answer.
macro_rules! words {
    ($answer:ident: $($field:ident),* $(; $($double:ident),*)?) => {
        impl Words for raw::$answer {
            fn words(&self) -> Vec<u64> {
                vec![$(self.$field as u64),* $(, $(self.$double.to_bits()),*)?]
            }
        }
    };
}

words!(NameAnswer: number, length);
words!(OperateAnswer: number, code);
words!(BlockAnswer: number, rows, length);
words!(CountsAnswer: number, holds, pairs);
words!(SignalAnswer: number, score, key, v1, v2, v3);
words!(FeedAnswer: number, pos, changed, decision, event);
words!(HoldAnswer: number, local, pos, present; price, bp);
words!(PairAnswer: number, side, opened, closed, ids, present, symbol, mark, sequence, lots; from, to, days, bp);

/// A call on both sides, and the numbers that it can answer.
pub struct Call {
    pub name: &'static str,
    pub numbers: &'static [usize],
    ours: fn(&mut Arguments) -> Vec<u64>,
    model: fn(&mut Arguments) -> Vec<u64>,
}

macro_rules! call {
    ($name:ident, $numbers:expr, $a:ident, $($argument:expr),*) => {
        Call {
            name: stringify!($name),
            numbers: &$numbers,
            ours: |$a| raw::$name($($argument),*).words(),
            model: |$a| model::$name($($argument),*).words(),
        }
    };
}

pub const COMPILE: Call = call!(
    compile,
    [0, 1, 2, 3, 4, 5, 6, 7, 8, 18],
    a,
    &a.text,
    &mut a.table
);
pub const FRESH: Call = call!(fresh, [0, 8], a, &mut a.book);
pub const FEED: Call = call!(
    feed,
    [0, 1, 2, 7, 8, 9, 10, 11, 12, 13, 14],
    a,
    &a.table,
    &mut a.book,
    a.id,
    a.instant,
    a.offset,
    f64::from_bits(a.price),
    &a.text
);
pub const FEED_LINE: Call = call!(
    feed_line,
    [0, 1, 2, 7, 8, 9, 10, 11, 12, 13, 14, 16, 17],
    a,
    &a.table,
    &mut a.book,
    &a.line,
    &a.text
);
pub const SAVE: Call = call!(save, [0, 8, 9, 10], a, &a.table, &a.book, &mut a.image);
pub const RESTORE: Call = call!(restore, [0, 8, 9, 10], a, &a.table, &mut a.book, &a.image);
pub const PAIR_ROW: Call = call!(
    pair_row,
    [0, 8, 9, 10, 15],
    a,
    &a.table,
    &a.book,
    a.index,
    &mut a.buffer
);
pub const HOLD_ROW: Call = call!(hold_row, [0, 8, 9, 10, 15], a, &a.table, &a.book, a.index);
pub const PAIR_ROWS: Call = call!(
    pair_rows,
    [0, 8, 9, 10, 15],
    a,
    &a.table,
    &a.book,
    a.index,
    &mut a.buffer
);
pub const HOLD_ROWS: Call = call!(
    hold_rows,
    [0, 8, 9, 10, 15],
    a,
    &a.table,
    &a.book,
    a.index,
    &mut a.buffer
);
pub const COUNTS: Call = call!(counts, [0, 8, 9, 10], a, &a.table, &a.book);
pub const EVENT_NAME: Call = call!(
    event_name,
    [0, 8, 9, 15],
    a,
    &a.table,
    a.index,
    &mut a.buffer
);
pub const SIGNAL: Call = call!(signal, [0, 1, 2, 5, 6, 7, 8], a, &a.text, &mut a.buffer);
pub const OPERATE: Call = call!(operate, [0, 1, 2, 4, 7], a, &a.text);
pub const OPERATE_NAME: Call = call!(operate_name, [0, 4, 8], a, a.code, &mut a.buffer);

pub const CALLS: [&Call; 15] = [
    &COMPILE,
    &FRESH,
    &FEED,
    &FEED_LINE,
    &SAVE,
    &RESTORE,
    &PAIR_ROW,
    &HOLD_ROW,
    &PAIR_ROWS,
    &HOLD_ROWS,
    &COUNTS,
    &EVENT_NAME,
    &SIGNAL,
    &OPERATE,
    &OPERATE_NAME,
];

/// Those that take a table.
pub fn table_calls() -> &'static [&'static Call] {
    let calls: &[&Call] = &CALLS;
    &calls[2..12]
}

/// Runs each field cut off at every place and begun there, and with every byte put in and put for another there.
pub fn every_byte_at_every_place(fields: &[&[u8]], mut run: impl FnMut(&[u8])) {
    for field in fields {
        for place in 0..=field.len() {
            let (before, behind) = field.split_at(place);
            run(before);
            run(behind);
            for byte in 0..=255 {
                run(&[before, &[byte], behind].concat());
                run(&[before, &[byte], behind.get(1..).unwrap_or(b"")].concat());
            }
        }
    }
}

/// The seed of the round that runs, and how often each call answered each number.
#[derive(Default)]
pub struct Comparison {
    pub seed: u64,
    pub counts: BTreeMap<&'static str, [u64; 32]>,
    /// How often nothing, an event, the stop and the timeout decided a bar.
    pub decisions: [u64; 4],
}

impl Comparison {
    /// Makes a call on both sides with the same arguments. The number, the values and all bytes must be the same. Gives the number and the
    /// arguments at exit.
    pub fn run(&mut self, call: &Call, arguments: &Arguments) -> (u64, Arguments) {
        let (mut ours, mut model) = (arguments.clone(), arguments.clone());
        let answer = (call.ours)(&mut ours);
        let expected = (call.model)(&mut model);
        if answer != expected || ours != model {
            self.tell(call, arguments, (answer, ours), (expected, model));
        }
        self.counts.entry(call.name).or_default()[answer[0] as usize] += 1;
        if [FEED.name, FEED_LINE.name].contains(&call.name) && answer[0] == 0 {
            self.decisions[answer[3] as usize] += 1;
        }
        (answer[0], ours)
    }

    /// What compiling a sheet gives: the number, and the arguments at exit, which are as they were where it is refused.
    pub fn compile(&mut self, sheet: &[u8]) -> (u64, Arguments) {
        let arguments = Arguments::compiling(sheet, vec![7; raw::TABLE_LENGTH]);
        let (number, after) = self.run(&COMPILE, &arguments);
        assert!(number == 0 || after == arguments, "{sheet:?}");
        (number, after)
    }

    /// A compiled table with a saved book of two bars by it, each on its own day, the first with these signals; and what else a call takes.
    pub fn two_bars(&mut self, compiled: Arguments, signals: &str) -> Arguments {
        let mut arguments = compiled;
        arguments.book = vec![0; raw::book_length(4)];
        arguments.image = vec![0; raw::book_length(4)];
        arguments.buffer = vec![7; raw::PAIR_ROW_LIMIT];
        arguments = self.run(&FRESH, &arguments).1;
        for (id, signals) in [(1, signals), (2, "")] {
            arguments.id = id;
            arguments.instant = id * 86_400_000_000;
            arguments.price = f64::to_bits(3.0 - id as f64);
            arguments.text = signals.as_bytes().to_vec();
            let (number, after) = self.run(&FEED, &arguments);
            assert_eq!(number, 0);
            arguments = after;
        }
        arguments.instant += 1;
        arguments.line = b"3,1970-02-01 00:00:00+00:00,1".to_vec();
        self.run(&SAVE, &arguments).1
    }

    /// Makes each call that takes a table: 0, or 9 with nothing changed where it is none.
    pub fn all_judge(&mut self, arguments: &Arguments, is_table: bool, what: &str) {
        for call in table_calls() {
            let (number, after) = self.run(call, arguments);
            let expected = if is_table { 0 } else { 9 };
            assert_eq!(number, expected, "{}, {what}", call.name);
            assert!(is_table || after == *arguments, "{}, {what}", call.name);
        }
    }

    fn tell(
        &self,
        call: &Call,
        arguments: &Arguments,
        ours: (Vec<u64>, Arguments),
        model: (Vec<u64>, Arguments),
    ) -> ! {
        panic!(
            "{} differs, seed {}\n{}\n--- ours {:?}\n{}\n--- model {:?}\n{}",
            call.name,
            self.seed,
            arguments.show(),
            ours.0,
            ours.1.show(),
            model.0,
            model.1.show()
        );
    }
}

impl Drop for Comparison {
    /// A panic inside one of the sides tells its seed too.
    fn drop(&mut self) {
        if std::thread::panicking() {
            eprintln!("seed {}", self.seed);
        }
    }
}
