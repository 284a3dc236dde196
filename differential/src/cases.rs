//! The stored set's cases: inputs of the run program with what it must print, by the Rust's answers or by a fault of a known number.

use crate::faults;
use crate::shown::{HoldRow, PairRow};
use crate::theirs::Theirs;
use inputs::{Bar, Rng, Season, Sheet, Step};

/// An input of the run program, and what it prints.
pub struct Case {
    pub input: Vec<u8>,
    pub output: String,
}

/// A bar with a fault: its lines, and the number that it is refused with.
struct Faulty {
    lines: Vec<u8>,
    number: u32,
}

/// A valid season as the Rust answers it.
pub fn valid(season: &Season) -> Case {
    case(season, None)
}

/// A season with a bar more, at any place, that is refused with a number; the Rust is fed the others.
pub fn with_faulty_bar(rng: &mut Rng, season: &Season, number: u32) -> Case {
    let place = rng.below(season.bars().count() + 1);
    let lines = faults::bar(rng, number);
    case(season, Some((place, Faulty { lines, number })))
}

/// A season of as many bars as the run program's book has room for, and one more, which is refused with 14.
pub fn overfull(sheet: Sheet) -> Case {
    const ROOM: i64 = 900;
    let bar = |id: i64| Bar {
        id,
        instant: id * 60_000_000,
        offset: 0,
        price: (1 + id % 7) as f64,
        signals: Vec::new(),
    };
    let season = Season {
        sheet,
        steps: (0..ROOM).map(|id| Step::Feed(bar(id))).collect(),
    };
    let lines = bar(ROOM).lines().into_bytes();
    case(&season, Some((ROOM as usize, Faulty { lines, number: 14 })))
}

/// A season that is refused with a number.
pub fn refused(rng: &mut Rng, season: &Season, number: u32) -> Case {
    Case {
        input: faults::input(rng, season, number),
        output: format!("E|{number}\n"),
    }
}

/// A season's input and output, with a faulty bar before the bar of an index.
fn case(season: &Season, fault: Option<(usize, Faulty)>) -> Case {
    let mut theirs = Theirs::new(&season.sheet).expect("the Rust reads a valid sheet");
    let mut input = format!("{}-\n", season.sheet.text()).into_bytes();
    let mut output = String::new();
    let bars: Vec<&Bar> = season.bars().collect();
    for index in 0..=bars.len() {
        if let Some((_, faulty)) = fault.as_ref().filter(|(place, _)| *place == index) {
            input.extend(&faulty.lines);
            output.push_str(&feed_line(faulty.number, &theirs));
        }
        if let Some(bar) = bars.get(index) {
            input.extend(bar.lines().as_bytes());
            output.push_str(&feed(&mut theirs, bar));
        }
    }
    let shown = theirs.shown();
    output.extend(shown.pairs.iter().map(pair_line));
    output.extend(shown.hold_rows.iter().map(hold_line));
    Case { input, output }
}

/// Feeds the Rust a bar. A late one leaves its holds as they are.
fn feed(theirs: &mut Theirs, bar: &Bar) -> String {
    let before = theirs.state().holds.len();
    theirs.feed(bar);
    let late = theirs.state().holds.len() == before;
    feed_line(if late { 13 } else { 0 }, theirs)
}

fn feed_line(number: u32, theirs: &Theirs) -> String {
    let (pos, changed) = theirs.standing();
    format!("F|{number}|{pos}|{}\n", u32::from(changed))
}

fn double(bits: Option<u64>) -> String {
    bits.map_or("-".into(), |bits| format!("{bits:016x}"))
}

/// A pair's line. Its lots, which the Rust does not know, are 1: the stored set's sheets say none.
fn pair_line(pair: &PairRow) -> String {
    format!(
        "R|{}|{}|{}|{}|{}|{:016x}|{:016x}|{}|{}|{:016x}|{}|1\n",
        pair.symbol,
        pair.mark,
        if pair.side == 1 { 'L' } else { 'S' },
        pair.opened,
        pair.closed,
        pair.from,
        pair.to,
        pair.ids,
        pair.sequence,
        pair.days,
        double(pair.bp)
    )
}

fn hold_line(hold: &HoldRow) -> String {
    format!(
        "H|{}|{}|{:016x}|{}\n",
        hold.local,
        hold.pos,
        hold.price,
        double(hold.bp)
    )
}
