//! The benchmark: ours and the unchanged Rust side by side, on the same sheets and bars.
//!
//!     side_by_side feed                            a feed, by the size of the sheet and the number of signals
//!     side_by_side book                            compiling; a book of 1,000,000 bars: feeds as it grows, save, restore, all rows
//!     side_by_side program BIN                     whole runs of the run program BIN
//!     side_by_side count WHO SIZE SIGNALS BARS     only feeds, of `ours`, `line`, `text` or `map`, within the function
//!                                                  `measured`; `line` is ours by the exchange's lines
//!
//! The Rust is given the same lines, of which it makes its map (`text`); and, beside it, its map for nothing (`map`).
//! `host/benches/run` builds and runs it, and counts instructions.

mod market;

use differential::theirs::{lite_bar, position};
use inputs::Bar;
use market::{SIGNALS, SIZES, Size, season, sheet};
use position_book::{Book, Table, raw};
use reference::objects::position::{LiteBar, Pos, Position};
use std::collections::HashMap;
use std::hint::black_box;
use std::io::Write;
use std::process::{Command, Stdio};
use std::time::Instant;

type Map = HashMap<String, String>;

/// A bar as each side takes it.
struct Fed {
    bar: Bar,
    lines: String,
    /// The bar as a line of the exchange's comma file, its price to six decimals.
    comma: String,
    lite: LiteBar,
    map: Map,
}

/// Who is measured.
#[derive(Clone, Copy, PartialEq)]
enum Who {
    Ours,
    Line,
    Text,
    Map,
}

fn main() {
    let words: Vec<String> = std::env::args().skip(1).collect();
    let words: Vec<&str> = words.iter().map(String::as_str).collect();
    match words[..] {
        ["feed"] => feeds(),
        ["book"] => book(),
        ["program", bin] => program(bin),
        ["count", who, size, signals, bars] => count(who, size, signals, bars),
        _ => {
            eprintln!("side_by_side feed | book | program BIN | count WHO SIZE SIGNALS BARS");
            std::process::exit(2);
        }
    }
}

fn fed(bars: usize, signals: usize) -> Vec<Fed> {
    let bars = season(bars, signals).into_iter();
    bars.map(|bar| Fed {
        lines: bar.signals_text(),
        comma: comma_line(&bar),
        lite: lite_bar(&bar),
        map: bar.signals.iter().cloned().collect(),
        bar,
    })
    .collect()
}

/// The line of a bar whose offset is not to the west.
fn comma_line(bar: &Bar) -> String {
    let local = position_book::Instant(bar.instant).local(bar.offset);
    let (hours, minutes) = (bar.offset / 3_600, bar.offset / 60 % 60);
    format!(
        "{},{local}+{hours:02}:{minutes:02},{:.6}",
        bar.id, bar.price
    )
}

/// Both sides of a book, empty, and the table.
struct Sides {
    table: Vec<u8>,
    book: Vec<u8>,
    position: Position,
}

impl Sides {
    fn new(size: Size, capacity: usize) -> Sides {
        let sheet = sheet(size);
        let mut table = vec![0; raw::TABLE_LENGTH];
        assert_eq!(raw::compile(sheet.text().as_bytes(), &mut table), 0);
        let mut book = vec![0; raw::book_length(capacity)];
        assert_eq!(raw::fresh(&mut book), 0);
        Sides {
            table,
            book,
            position: position(&sheet).expect("the Rust reads the sheet"),
        }
    }
}

/// Feeds bars to one side: the sum of the positions after each, so that both can be seen to do the same.
#[unsafe(no_mangle)]
#[inline(never)]
fn measured(who: Who, sides: &mut Sides, bars: &[Fed]) -> i64 {
    match who {
        Who::Ours => bars.iter().map(|fed| feed_ours(sides, fed)).sum(),
        Who::Line => bars.iter().map(|fed| feed_line(sides, fed)).sum(),
        Who::Text => bars
            .iter()
            .map(|fed| feed_rust(&mut sides.position, fed.lite, &map_of(&fed.lines)))
            .sum(),
        Who::Map => bars
            .iter()
            .map(|fed| feed_rust(&mut sides.position, fed.lite, &fed.map))
            .sum(),
    }
}

fn feed_ours(sides: &mut Sides, fed: &Fed) -> i64 {
    let bar = &fed.bar;
    let said = raw::feed(
        &sides.table,
        &mut sides.book,
        bar.id,
        bar.instant,
        bar.offset,
        bar.price,
        fed.lines.as_bytes(),
    );
    assert_eq!(said.number, 0);
    i64::from(said.pos)
}

fn feed_line(sides: &mut Sides, fed: &Fed) -> i64 {
    let (line, signals) = (fed.comma.as_bytes(), fed.lines.as_bytes());
    let said = raw::feed_line(&sides.table, &mut sides.book, line, signals);
    assert_eq!(said.number, 0);
    i64::from(said.pos)
}

fn feed_rust(position: &mut Position, bar: LiteBar, map: &Map) -> i64 {
    position.update_profiled_with_signal_map(bar, None, Some(map));
    match position.get_pos() {
        Pos::Short => -1,
        Pos::Flat => 0,
        Pos::Long => 1,
    }
}

/// The Rust's map of a bar's lines.
fn map_of(lines: &str) -> Map {
    lines
        .lines()
        .filter_map(|line| line.split_once('|'))
        .map(|(key, value)| (key.to_string(), value.to_string()))
        .collect()
}

/// Nanoseconds that some work takes.
fn timed<R>(work: impl FnOnce() -> R) -> (f64, R) {
    let start = Instant::now();
    let r = black_box(work());
    (start.elapsed().as_nanos() as f64, r)
}

/// The least and the median.
fn least_and_median(mut times: Vec<f64>) -> (f64, f64) {
    times.sort_by(f64::total_cmp);
    (times[0], times[times.len() / 2])
}

/// A table of feeds: µs a bar, the best of the rounds (in brackets the median), and how many times as fast ours is.
fn feeds() {
    println!(
        "| sheet | signals | bytes | ours | the Rust from text | its map given | text / ours | map / ours |"
    );
    println!("|---|---|---|---|---|---|---|---|");
    for size in SIZES {
        for signals in SIGNALS {
            feed_row(size, signals);
        }
    }
}

fn feed_row(size: Size, signals: usize) {
    const BARS: usize = 500;
    const ROUNDS: usize = 25;
    let bars = fed(BARS, signals);
    let mut times: [Vec<f64>; 3] = Default::default();
    for _ in 0..ROUNDS {
        let mut said = [0; 3];
        for (i, who) in [Who::Ours, Who::Text, Who::Map].into_iter().enumerate() {
            let mut sides = Sides::new(size, BARS);
            // The first bar makes the Rust's matcher, and is not timed.
            measured(who, &mut sides, &bars[..1]);
            let (ns, sum) = timed(|| measured(who, &mut sides, &bars[1..]));
            times[i].push(ns / (BARS - 1) as f64 / 1_000.0);
            said[i] = sum;
        }
        assert!(said[0] == said[1] && said[1] == said[2], "{said:?}");
    }
    let [ours, text, map] = times.map(least_and_median);
    let shown = |(best, median): (f64, f64)| format!("{best:.2} ({median:.2})");
    println!(
        "| {} | {signals} | {} | {} | {} | {} | {:.2} | {:.2} |",
        size.name,
        bars[0].lines.len(),
        shown(ours),
        shown(text),
        shown(map),
        text.0 / ours.0,
        map.0 / ours.0
    );
}

/// Feeds of one side alone, to count instructions.
fn count(who: &str, size: &str, signals: &str, bars: &str) {
    let who = match who {
        "ours" => Who::Ours,
        "line" => Who::Line,
        "text" => Who::Text,
        _ => Who::Map,
    };
    let size = SIZES
        .into_iter()
        .find(|s| s.name == size)
        .expect("a size: small, middle or largest");
    let bars = fed(
        bars.parse().expect("so many bars"),
        signals.parse().expect("so many signals"),
    );
    let mut sides = Sides::new(size, bars.len());
    println!("{}", measured(who, &mut sides, &bars));
}

/// A row of the second table: both sides' best of the rounds in ms.
fn print_row(what: &str, ours: Vec<f64>, rust: Vec<f64>) {
    let (ours, rust) = (least_and_median(ours), least_and_median(rust));
    println!(
        "| {what} | {:.4} ({:.4}) | {:.4} ({:.4}) | {:.2} |",
        ours.0 / 1e6,
        ours.1 / 1e6,
        rust.0 / 1e6,
        rust.1 / 1e6,
        rust.0 / ours.0
    );
}

/// Times both sides' work in turn.
fn compared(what: &str, rounds: usize, mut ours: impl FnMut(), mut rust: impl FnMut()) {
    let (mut a, mut b) = (Vec::new(), Vec::new());
    for _ in 0..rounds {
        a.push(timed(&mut ours).0);
        b.push(timed(&mut rust).0);
    }
    print_row(what, a, b);
}

fn book() {
    println!("| what | ours, ms | the Rust, ms | the Rust / ours |");
    println!("|---|---|---|---|");
    for size in SIZES {
        compile_row(size);
    }
    let mut sides = grown();
    stored_rows(&mut sides);
    all_rows(&sides);
}

/// Compiling: the Rust reads the same signals, and makes its matcher at the first bar.
fn compile_row(size: Size) {
    let sheet = sheet(size);
    let text = sheet.text();
    let bar = &fed(1, 0)[0];
    let mut table = vec![0; raw::TABLE_LENGTH];
    compared(
        &format!("compile the {} sheet ({} bytes)", size.name, text.len()),
        200,
        || assert_eq!(raw::compile(text.as_bytes(), &mut table), 0),
        || {
            let mut position = position(&sheet).expect("the Rust reads the sheet");
            feed_rust(&mut position, bar.lite, &bar.map);
            black_box(position);
        },
    );
}

/// Feeds 1,000,000 bars to both sides, and shows what a feed costs as the book grows: the ten blocks of feeds before each mark.
fn grown() -> Sides {
    const MARKS: [usize; 5] = [10, 1_000, 10_000, 100_000, 1_000_000];
    let mut sides = Sides::new(SIZES[0], MARKS[4]);
    let mut bars = fed(100, 10);
    let mut held = 0;
    for mark in MARKS {
        let block = if mark == 10 { 1 } else { bars.len() };
        let (mut ours, mut rust) = (Vec::new(), Vec::new());
        while held < mark {
            let step = block.min(mark - held);
            move_to(&mut bars, held);
            let (a, x) = timed(|| measured(Who::Ours, &mut sides, &bars[..step]));
            let (b, y) = timed(|| measured(Who::Map, &mut sides, &bars[..step]));
            assert_eq!(x, y);
            held += step;
            if mark - held < 10 * block {
                ours.push(a / step as f64);
                rust.push(b / step as f64);
            }
        }
        print_row(
            &format!("a feed up to {mark} bars held, the Rust's map given"),
            ours,
            rust,
        );
    }
    sides
}

/// Gives the bars the ids and instants that follow so many bars.
fn move_to(bars: &mut [Fed], held: usize) {
    for (i, fed) in bars.iter_mut().enumerate() {
        fed.bar.id = (held + i) as i64;
        fed.bar.instant = 1_000_000_000_000_000 + fed.bar.id * 900_000_000;
        fed.lite = lite_bar(&fed.bar);
    }
}

/// Save and restore of a whole book.
fn stored_rows(sides: &mut Sides) {
    let mut image = vec![0; sides.book.len()];
    let mut state = None;
    compared(
        "save 1,000,000 bars (`export_runtime_state`)",
        9,
        || assert_eq!(raw::save(&sides.table, &sides.book, &mut image), 0),
        || state = Some(sides.position.export_runtime_state()),
    );
    let state = state.expect("it was saved");
    let (mut ours, mut rust) = (Vec::new(), Vec::new());
    for _ in 0..9 {
        let given = state.clone();
        ours.push(timed(|| assert_eq!(raw::restore(&sides.table, &mut sides.book, &image), 0)).0);
        rust.push(timed(|| sides.position.import_runtime_state(given)).0);
    }
    print_row(
        "restore them (`import_runtime_state`, a state given for nothing)",
        ours,
        rust,
    );
}

/// All rows of a whole book.
fn all_rows(sides: &Sides) {
    let table = Table::from_bytes(&sides.table).expect("a table");
    let book = Book::from_image(&table, &sides.book).expect("a book");
    let pairs = book.pairs(&table).expect("its pairs").count();
    compared(
        &format!("all {pairs} pair rows"),
        5,
        || {
            assert_eq!(
                book.pairs(&table)
                    .expect("its pairs")
                    .map(black_box)
                    .count(),
                pairs
            )
        },
        || drop(black_box(sides.position.pairs().expect("its pairs"))),
    );
    compared(
        "all 1,000,000 hold rows",
        5,
        || {
            assert_eq!(
                book.holds(&table)
                    .expect("its holds")
                    .map(black_box)
                    .count(),
                1_000_000
            )
        },
        || drop(black_box(sides.position.holds().expect("its holds"))),
    );
}

/// Whole runs of the run program, its start and the pipes to and from it included.
fn program(bin: &str) {
    println!("| input | bytes | printed | ms |");
    println!("|---|---|---|---|");
    for bars in [20, 600] {
        let sheet = sheet(SIZES[0]).text();
        let lines: String = season(bars, 1).iter().map(Bar::lines).collect();
        let input = format!("{sheet}-\n{lines}");
        let mut printed = 0;
        let mut times = Vec::new();
        for _ in 0..40 {
            let (ns, n) = timed(|| run_once(bin, input.as_bytes()));
            times.push(ns / 1e6);
            printed = n;
        }
        let (best, median) = least_and_median(times);
        println!(
            "| the small sheet, {bars} bars with a signal each | {} | {printed} | {best:.2} ({median:.2}) |",
            input.len()
        );
    }
}

/// Runs the program over an input: how many bytes it prints.
fn run_once(bin: &str, input: &[u8]) -> usize {
    let mut child = Command::new(bin)
        .stdin(Stdio::piped())
        .stdout(Stdio::piped())
        .spawn()
        .expect("the run program starts");
    let mut stdin = child.stdin.take().expect("its input is a pipe");
    stdin.write_all(input).expect("it reads its input");
    drop(stdin);
    child.wait_with_output().expect("it ends").stdout.len()
}
