//! Document 01, "Book": the book's bytes, the header check and the full check, fresh, feed, save and restore.

use super::entries::{
    f64_at, flag, i32_at, optional, pos_of, put_hold, put_record, put_time, read_hold, read_record,
    time_at, why_numbers,
};
use super::machine::{Bar, Hold, LO, Record, Reference, SO, State, Why, bar_of, step};
use super::matching::{first_match, read_signals};
use super::table::{self, read_table};
use super::texts::Sheet;
use super::{Answer, number, put, require, u32_at};
use position_book::raw::FeedAnswer;

const HEADER: usize = 96;
const ENTRY: usize = 32;
const BARS_LIMIT: usize = 1_000_000;

/// The bars that a book has room for, by its length (8).
fn capacity(book: &[u8]) -> Answer<usize> {
    let fits = |bars: &usize| book.len() == length(*bars);
    let bars = book.len().saturating_sub(HEADER) / (2 * ENTRY);
    Some(bars)
        .filter(fits)
        .filter(|bars| (1..=BARS_LIMIT).contains(bars))
        .ok_or(8)
}

/// The book's room, where table and book have their lengths (8).
fn sized(table: &[u8], book: &[u8]) -> Answer<usize> {
    require(table.len() == table::LENGTH, 8)?;
    capacity(book)
}

fn hold_place(index: usize) -> usize {
    HEADER + ENTRY * index
}

fn record_place(bars: usize, index: usize) -> usize {
    HEADER + ENTRY * (bars + index)
}

fn length(bars: usize) -> usize {
    HEADER + 2 * ENTRY * bars
}

fn reference_at(header: &[u8]) -> Option<Reference> {
    let bar = Bar {
        id: i32_at(header, 68),
        time: time_at(header, 72, 80)?,
        price: f64_at(header, 88),
    };
    let reference = Reference {
        bar,
        operate: header[29],
        event: u32_at(header, 84),
    };
    Some(reference).filter(|r| r.bar.in_range() && [LO, SO].contains(&r.operate))
}

/// The header check: H, R, and the state without its lists, but with the last hold, which has the open lots.
fn read_header(book: &[u8]) -> Option<(usize, usize, State)> {
    let bars = capacity(book).ok()?;
    let [holds, records, room, holds_at, records_at, length] =
        std::array::from_fn(|n| u32_at(book, 4 * n) as usize);
    let sizes =
        (room, holds_at, records_at, length) == (bars, HEADER, record_place(bars, 0), book.len());
    let counted = sizes && records <= holds && holds <= bars;
    let state = Some(read_state(book)?).filter(|_| counted)?;
    if holds == 0 {
        return (book[..HEADER] == header_bytes(bars, 0, 0, &State::fresh()))
            .then_some((0, 0, state));
    }
    let last = read_hold(&book[hold_place(holds - 1)..][..ENTRY])?;
    let agrees = last.time == state.end && last.pos == state.pos && last.bp.is_none();
    let state = State {
        lots: last.lots,
        holds: vec![last],
        ..state
    };
    agrees.then_some((holds, records, state))
}

/// The header's own state, each field in its range.
fn read_state(book: &[u8]) -> Option<State> {
    let absent = |fields: &[(usize, usize)]| -> Vec<u8> {
        fields
            .iter()
            .flat_map(|(at, length)| &book[*at..at + length])
            .copied()
            .collect()
    };
    let long = absent(&[(44, 4), (48, 8)]);
    let short = absent(&[(56, 8), (64, 4)]);
    let reference = absent(&[(29, 1), (68, 28)]);
    let state = State {
        pos: pos_of(book[24])?,
        lots: 0,
        changed: flag(book[25])?,
        end: time_at(book, 32, 40)?,
        long_open: optional(flag(book[26])?, &long, time_at(book, 48, 44))?,
        short_open: optional(flag(book[27])?, &short, time_at(book, 56, 64))?,
        reference: optional(flag(book[28])?, &reference, reference_at(book))?,
        records: Vec::new(),
        holds: Vec::new(),
    };
    let opens = [
        state.long_open,
        state.short_open,
        state.reference.map(|r| r.bar.time),
    ];
    let early = opens
        .iter()
        .flatten()
        .all(|open| open.instant <= state.end.instant);
    (early && book[30..32] == [0, 0]).then_some(state)
}

/// The full check: the whole state.
fn read_full(sheet: &Sheet, book: &[u8]) -> Option<State> {
    let (holds, records, state) = read_header(book)?;
    let hold = |n: usize| read_hold(&book[hold_place(n)..][..ENTRY]);
    let bars = capacity(book).ok()?;
    let record = |n: usize| read_record(&book[record_place(bars, n)..][..ENTRY]);
    let holds: Vec<Hold> = (0..holds).map(hold).collect::<Option<_>>()?;
    let records: Vec<Record> = (0..records).map(record).collect::<Option<_>>()?;
    let rising = holds
        .windows(2)
        .all(|pair| pair[0].time.instant < pair[1].time.instant)
        && records
            .windows(2)
            .all(|pair| pair[0].bar.time.instant < pair[1].bar.time.instant);
    let known = |event: u32| (event as usize) < sheet.events.len();
    let events_known = state
        .reference
        .is_none_or(|reference| known(reference.event))
        && records.iter().all(|record| match record.why {
            Why::Event(event) => known(event),
            Why::Stop | Why::Timeout => true,
        });
    (rising && events_known).then_some(State {
        holds,
        records,
        ..state
    })
}

/// The sheet of a table (9) and the state of a book that passes the full check (10).
pub fn checked(table: &[u8], book: &[u8]) -> Answer<(Sheet, State)> {
    sized(table, book)?;
    let sheet = read_table(table)?;
    let state = read_full(&sheet, book).ok_or(10u32)?;
    Ok((sheet, state))
}

/// The header of a state with H and R.
fn header_bytes(bars: usize, holds: usize, records: usize, state: &State) -> Vec<u8> {
    let mut header = vec![0; HEADER];
    let sizes = [
        holds,
        records,
        bars,
        HEADER,
        record_place(bars, 0),
        length(bars),
    ];
    for (n, size) in sizes.into_iter().enumerate() {
        put(&mut header[4 * n..], &(size as u32).to_le_bytes());
    }
    header[24..26].copy_from_slice(&[state.pos as u8, state.changed.into()]);
    put_time(&mut header, 32, 40, state.end);
    if let Some(open) = state.long_open {
        header[26] = 1;
        put_time(&mut header, 48, 44, open);
    }
    if let Some(open) = state.short_open {
        header[27] = 1;
        put_time(&mut header, 56, 64, open);
    }
    if let Some(reference) = state.reference {
        put_reference(&mut header, reference);
    }
    header
}

fn put_reference(header: &mut [u8], reference: Reference) {
    header[28..30].copy_from_slice(&[1, reference.operate]);
    put(&mut header[68..], &reference.bar.id.to_le_bytes());
    put_time(header, 72, 80, reference.bar.time);
    put(&mut header[84..], &reference.event.to_le_bytes());
    put(&mut header[88..], &reference.bar.price.to_le_bytes());
}

/// The book of a state with room for so many bars.
pub fn encode(bars: usize, state: &State) -> Vec<u8> {
    let mut book = header_bytes(bars, state.holds.len(), state.records.len(), state);
    book.resize(length(bars), 0);
    for (n, hold) in state.holds.iter().enumerate() {
        put_hold(&mut book[hold_place(n)..][..ENTRY], hold);
    }
    for (n, record) in state.records.iter().enumerate() {
        put_record(&mut book[record_place(bars, n)..][..ENTRY], record);
    }
    book
}

/// The call `fresh`.
pub fn fresh(book: &mut [u8]) -> u32 {
    let answer = capacity(book);
    if let Ok(bars) = answer {
        put(book, &encode(bars, &State::fresh()));
    }
    number(&answer)
}

/// What a feed found (C, H, R), the state that its bar makes, and what decided it.
struct Fed {
    bars: usize,
    holds: usize,
    records: usize,
    state: State,
    decision: Option<Why>,
}

/// A feed's checks in their order, then the step.
fn fed(table: &[u8], book: &[u8], bar: Answer<Bar>, signals: &[u8]) -> Answer<Fed> {
    let bars = sized(table, book)?;
    let sheet = read_table(table)?;
    let (holds, records, mut state) = read_header(book).ok_or(10u32)?;
    let bar = bar?;
    let signals = read_signals(signals)?;
    require(holds == 0 || bar.time.instant > state.end.instant, 13)?;
    require(holds < bars, 14)?;
    let chosen = first_match(&sheet, &signals);
    step(&sheet, &mut state, bar, chosen);
    let written = state.records.last().map(|record| record.why);
    let decision = written.or(chosen.map(Why::Event));
    Ok(Fed {
        bars,
        holds,
        records,
        state,
        decision,
    })
}

/// Writes the header, the last hold with its yield, the new hold and the record if there is one.
fn write_bar(book: &mut [u8], fed: &Fed) {
    let Fed {
        bars,
        holds,
        records,
        state,
        ..
    } = fed;
    put(
        book,
        &header_bytes(*bars, holds + 1, records + state.records.len(), state),
    );
    for (n, hold) in (0..=*holds).rev().zip(state.holds.iter().rev()) {
        put_hold(&mut book[hold_place(n)..][..ENTRY], hold);
    }
    if let Some(record) = state.records.last() {
        put_record(&mut book[record_place(*bars, *records)..][..ENTRY], record);
    }
}

/// The call `feed`.
pub fn feed(
    table: &[u8],
    book: &mut [u8],
    id: i64,
    instant: i64,
    offset: i64,
    price: f64,
    signals: &[u8],
) -> FeedAnswer {
    let bar = bar_of(id, instant, offset, price);
    feed_bar(table, book, bar, signals)
}

/// A feed of a bar, or of what is refused in its place after the book's check.
pub fn feed_bar(table: &[u8], book: &mut [u8], bar: Answer<Bar>, signals: &[u8]) -> FeedAnswer {
    let answer = fed(table, book, bar, signals);
    let number = number(&answer);
    let Ok(fed) = answer else {
        return FeedAnswer {
            number,
            pos: 0,
            changed: 0,
            decision: 0,
            event: 0,
        };
    };
    write_bar(book, &fed);
    let (decision, event) = fed.decision.map_or((0, 0), why_numbers);
    FeedAnswer {
        number,
        pos: fed.state.pos.sign(),
        changed: fed.state.changed.into(),
        decision,
        event,
    }
}

/// The checks of a save or restore, of which `from` is copied to `to`.
fn copied(table: &[u8], from: &[u8], to: &mut [u8]) -> u32 {
    let answer = require(from.len() == to.len(), 8).and_then(|()| checked(table, from));
    if answer.is_ok() {
        put(to, from);
    }
    number(&answer)
}

/// The call `save`.
pub fn save(table: &[u8], book: &[u8], image: &mut [u8]) -> u32 {
    copied(table, book, image)
}

/// The call `restore`.
pub fn restore(table: &[u8], book: &mut [u8], image: &[u8]) -> u32 {
    copied(table, image, book)
}
