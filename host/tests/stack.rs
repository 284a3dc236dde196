//! What the calls need of the stack. The frames of the archive's functions, summed along every chain of calls, are within what `raw` says,
//! whatever the arguments; and every call is run, on arguments at the limits, where little more than that is left.
//! `cargo test --release --test stack -- --nocapture` prints the figures.

mod frames;

use frames::Frames;
use position_book::raw;
use std::fs;
use std::hint::black_box;
use std::thread;

/// All that the calls are lent.
struct Lent {
    text: Vec<u8>,
    table: Vec<u8>,
    book: Vec<u8>,
    image: Vec<u8>,
    rows: Vec<u8>,
    /// A bar's signals, for each event that they are to choose; the last chooses none.
    signals: Vec<String>,
    /// The season's bars again, as later lines of the exchange's file, with as many digits as they may have.
    lines: Vec<String>,
}

/// A call by its name, and its number on what it is lent: 0, so that it went all its way.
type Call = (&'static str, fn(&mut Lent) -> u32);

/// Every exported call, in an order in which none is refused.
const CALLS: [Call; 15] = [
    ("compile", |a| raw::compile(&a.text, &mut a.table)),
    ("fresh", |a| raw::fresh(&mut a.book)),
    ("feed", feeds),
    ("feed_line", feed_lines),
    ("save", |a| raw::save(&a.table, &a.book, &mut a.image)),
    ("restore", |a| raw::restore(&a.table, &mut a.book, &a.image)),
    ("pair_row", |a| {
        raw::pair_row(&a.table, &a.book, 0, &mut a.rows).number
    }),
    ("hold_row", |a| raw::hold_row(&a.table, &a.book, 0).number),
    ("pair_rows", |a| {
        raw::pair_rows(&a.table, &a.book, 0, &mut a.rows).number
    }),
    ("hold_rows", |a| {
        raw::hold_rows(&a.table, &a.book, 0, &mut a.rows).number
    }),
    ("counts", |a| raw::counts(&a.table, &a.book).number),
    ("event_name", |a| {
        raw::event_name(&a.table, 0, &mut a.rows).number
    }),
    ("signal", |a| {
        raw::signal("日线_D1_均线_向上_任意_任意_60".as_bytes(), &mut a.rows).number
    }),
    ("operate", |_| raw::operate("平空".as_bytes()).number),
    ("operate_name", |a| raw::operate_name(6, &mut a.rows).number),
];

/// Bars that open, reverse, close by an event, by the stop and by the timeout, and wait.
const SEASON: [(usize, f64); 12] = [
    (0, 100.0),
    (1, 100.0),
    (17, 100.0),
    (0, 100.0),
    (16, 101.0),
    (1, 100.0),
    (32, 200.0),
    (0, 100.0),
    (32, 100.0),
    (32, 100.0),
    (32, 100.0),
    (0, 0.0),
];

fn feeds(a: &mut Lent) -> u32 {
    let mut number = 0;
    for (id, (event, price)) in (0..).zip(SEASON) {
        let signals = a.signals[event].as_bytes();
        let instant = id * 86_400_000_000;
        number |= raw::feed(&a.table, &mut a.book, id, instant, 28_800, price, signals).number;
    }
    number
}

fn feed_lines(a: &mut Lent) -> u32 {
    let mut number = 0;
    for (line, (event, _)) in a.lines.iter().zip(SEASON) {
        let signals = a.signals[event].as_bytes();
        number |= raw::feed_line(&a.table, &mut a.book, line.as_bytes(), signals).number;
    }
    number
}

/// Bar number i of the season as a line: an id of ten digits, a late day, a price of fifteen digits.
fn line(i: usize) -> String {
    let (id, day, price) = (2_147_483_600 + i, 1 + i, SEASON[i].1);
    format!("{id},2099-12-{day:02} 23:59:59-23:59,{price:016.6}")
}

/// A sheet at the limits: 32 events, 256 clauses, each with a key and a value of its own, and names of 256 bytes.
fn sheet() -> String {
    let long = |letter: &str| letter.repeat(raw::NAME_LIMIT);
    let mut text = format!("P|{}|{}|0|2|100.25|1|1439\n", long("n"), long("s"));
    for e in 0..32 {
        let exit = e >= 16;
        let operate = [["LO", "SO"], ["LE", "SE"]][usize::from(exit)][e % 2];
        let name = if e < 2 { long("e") } else { format!("e{e}") };
        text += &format!("{}|{operate}|{name}\n", if exit { "X" } else { "O" });
        for k in 8 * e..8 * e + 8 {
            text += &format!("{}|k_a_{k}_v{k}_任意_任意_0\n", &"AAAAAAYN"[k % 8..][..1]);
        }
    }
    text
}

/// 256 signals, by which event number e alone matches.
fn signals(e: usize) -> String {
    let value = |k: usize| if k / 8 == e && k % 8 < 7 { k } else { 999 };
    (0..256)
        .map(|k| format!("k_a_{k}|v{}_x_y_50\n", value(k)))
        .collect()
}

fn lent() -> Lent {
    Lent {
        text: sheet().into_bytes(),
        table: vec![0; raw::TABLE_LENGTH],
        book: vec![0; raw::book_length(900)],
        image: vec![0; raw::book_length(900)],
        rows: vec![0; 1 << 16],
        signals: (0..=32).map(signals).collect(),
        lines: (0..SEASON.len()).map(line).collect(),
    }
}

/// What a call is said to need.
fn said(name: &str) -> usize {
    match name {
        "compile" => raw::COMPILE_STACK,
        _ => raw::CALL_STACK,
    }
}

/// What is used below the frames: by memcpy, memmove and memset of the C library, and by its loader where it binds them at their first call.
const BELOW: usize = 4_096;

/// What every chain of calls uses is within what is said.
fn see_frames() {
    let Some(frames) = Frames::read() else {
        println!("no objdump: the frames are not read");
        return;
    };
    for (name, _) in CALLS {
        let bytes = frames.deepest(&format!("position_book_{name}"));
        println!("{name}: {bytes} bytes of the stack");
        assert!(bytes + BELOW <= said(name), "{name} uses {bytes} bytes");
    }
}

/// Where the stack that a place is on ends.
fn end_of_stack(place: usize) -> usize {
    let maps = fs::read_to_string("/proc/self/maps").unwrap();
    let bounds = maps.lines().filter_map(|line| {
        let (low, high) = line.split(' ').next()?.split_once('-')?;
        let at = |digits| usize::from_str_radix(digits, 16).ok();
        Some((at(low)?, at(high)?))
    });
    let mut around = bounds.filter(|(low, high)| (*low..*high).contains(&place));
    around.next().unwrap().0
}

/// Goes down the stack until it has `left` bytes left, and at most 2 KB more, and calls.
#[inline(never)]
fn descend(end: usize, left: usize, call: &mut dyn FnMut()) {
    let frame = [0u8; 512];
    if black_box(&frame).as_ptr() as usize - end > left + 1_024 {
        descend(end, left, call);
    } else {
        call();
    }
    black_box(&frame);
}

/// Every call with little more left than is said: one that needed more would end the process.
fn run_calls() -> [(&'static str, u32); CALLS.len()] {
    let mut a = lent();
    let end = end_of_stack(&raw const a as usize);
    CALLS.map(|(name, call)| {
        let mut number = 99;
        descend(end, said(name), &mut || number = call(&mut a));
        (name, number)
    })
}

#[test]
fn no_call_needs_more_than_is_said() {
    see_frames();
    let thread = thread::Builder::new().stack_size(2 * raw::COMPILE_STACK);
    let numbers = thread.spawn(run_calls).unwrap().join().unwrap();
    assert_eq!(numbers, CALLS.map(|(name, _)| (name, 0)));
}

#[test]
fn the_header_has_these_calls_and_these_figures() {
    let header = include_str!("../include/position_book.h");
    let figures = [("COMPILE", raw::COMPILE_STACK), ("CALL", raw::CALL_STACK)];
    for (name, bytes) in figures {
        assert!(header.contains(&format!("#define POSITION_BOOK_{name}_STACK {bytes}\n")));
    }
    let declared = header.lines().filter(|line| line.ends_with(");"));
    let mut declared: Vec<&str> = declared
        .map(|line| line.split_once(" position_book_").unwrap().1)
        .map(|rest| rest.split('(').next().unwrap())
        .collect();
    let mut here = CALLS.map(|(name, _)| name);
    declared.sort_unstable();
    here.sort_unstable();
    assert_eq!(declared, here);
}
