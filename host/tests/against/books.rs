//! Books and images that no season gives: states of any kind that a check passes, and faults in each field that 01 names.

use super::numbers::double;
use crate::model::book::encode;
use crate::model::machine::{Bar, Hold, LE, LO, Pos, Record, Reference, SE, SO, State, Time, Why};
use inputs::{LAST_ID, LAST_INSTANT, LAST_OFFSET, LOTS_LIMIT, Rng};

const DAY: i64 = 86_400_000_000;

/// Where the fields of the header, of a hold and of a record start, and where the last one ends.
const HEADER: [usize; 26] = [
    0, 4, 8, 12, 16, 20, 24, 25, 26, 27, 28, 29, 30, 31, 32, 40, 44, 48, 56, 64, 68, 72, 80, 84,
    88, 96,
];
const HOLD: [usize; 8] = [0, 8, 12, 13, 14, 16, 24, 32];
const RECORD: [usize; 11] = [0, 8, 12, 16, 24, 25, 26, 27, 28, 30, 32];
/// The starts of fields of eight bytes that are doubles.
const DOUBLES: [usize; 3] = [16, 24, 88];

/// A book that mostly passes the full check of a sheet with so many events, though the machine may never write it.
pub fn made(rng: &mut Rng, events: usize) -> Vec<u8> {
    let bars = 1 + rng.below(9);
    let mut state = State::fresh();
    state.holds = holds(rng, bars);
    let records = rng.below(state.holds.len() + 1);
    let traded = &state.holds[..records];
    state.records = traded
        .iter()
        .map(|hold| record(rng, hold.time.instant, events))
        .collect();
    if let Some(last) = state.holds.last_mut() {
        last.bp = None;
        (state.end, state.pos) = (last.time, last.pos);
        head(rng, &mut state, events);
    }
    let mut book = encode(bars, &state);
    if rng.once_in(3) {
        let (holds_end, records_end) = (96 + 32 * bars, book.len());
        litter(rng, &mut book[96 + 32 * state.holds.len()..holds_end]);
        litter(rng, &mut book[holds_end + 32 * records..records_end]);
    }
    book
}

/// At most so many holds, at rising instants.
fn holds(rng: &mut Rng, most: usize) -> Vec<Hold> {
    let mut holds = Vec::new();
    let mut instant = rng.between(0, DAY);
    for _ in 0..rng.below(most + 1) {
        let any = rng.between(1, 3 * DAY);
        instant += *rng.pick(&[1, 1_000_000, DAY, any]);
        holds.push(hold(rng, instant));
    }
    holds
}

/// Puts anything into slots past H or R, which no check looks at and no call but fresh and copying may change.
fn litter(rng: &mut Rng, slots: &mut [u8]) {
    slots.fill_with(|| rng.bits() as u8);
}

fn time(rng: &mut Rng, instant: i64) -> Time {
    let any = rng.between(-LAST_OFFSET, LAST_OFFSET);
    let offset = *rng.pick(&[0, 28_800, LAST_OFFSET, -LAST_OFFSET, any]);
    Time {
        instant,
        offset: offset as i32,
    }
}

fn pos(rng: &mut Rng) -> Pos {
    *rng.pick(&[Pos::Short, Pos::Flat, Pos::Long])
}

/// A finite price.
fn price(rng: &mut Rng) -> f64 {
    let any = f64::from_bits(double(rng));
    *rng.pick(&[
        100.0,
        99.0,
        101.0,
        0.0,
        -0.0,
        if any.is_finite() { any } else { -1.0 },
    ])
}

fn bar(rng: &mut Rng, instant: i64) -> Bar {
    let any = rng.between(0, LAST_ID);
    let id = *rng.pick(&[0, 1, 5, 10, LAST_ID, any]) as i32;
    Bar {
        id,
        time: time(rng, instant),
        price: price(rng),
    }
}

/// Lots of a record or of a hold with a position: none as in older books, up to their limit, now and then above it.
fn lots(rng: &mut Rng) -> u16 {
    let any = rng.between(0, LOTS_LIMIT) as u16;
    let above = if rng.once_in(20) { 1_001 } else { 1_000 };
    *rng.pick(&[0, 1, 2, 255, 256, any, above])
}

/// A hold, its yield absent or any, now and then a NaN, and seldom lots where it is Flat.
fn hold(rng: &mut Rng, instant: i64) -> Hold {
    let bp = f64::from_bits(double(rng));
    let present = rng.once_in(2) && (!bp.is_nan() || rng.once_in(8));
    let (pos, lots) = (pos(rng), lots(rng));
    let none = pos == Pos::Flat && !rng.once_in(40);
    Hold {
        time: time(rng, instant),
        pos,
        price: price(rng),
        bp: present.then_some(bp),
        lots: if none { 0 } else { lots },
    }
}

/// The index of an event, now and then of one that is not there.
fn event(rng: &mut Rng, events: usize) -> u32 {
    let missing = events == 0 || rng.once_in(20);
    rng.below(events + usize::from(missing)) as u32
}

fn record(rng: &mut Rng, instant: i64, events: usize) -> Record {
    let by_event = Why::Event(event(rng, events));
    Record {
        bar: bar(rng, instant),
        operate: *rng.pick(&[LO, LE, SO, SE]),
        pos: pos(rng),
        why: *rng.pick(&[by_event, Why::Stop, Why::Timeout]),
        lots: lots(rng),
    }
}

/// Opens and a reference up to the end, each of them present or not.
fn head(rng: &mut Rng, state: &mut State, events: usize) {
    let end = state.end.instant;
    let mut earlier = || {
        let any = rng.between(0, end);
        let instant = *rng.pick(&[end, end - 1, end - 1_000_000, end - DAY, 0, any]);
        (!rng.once_in(3)).then(|| bar(rng, instant.max(0)))
    };
    state.long_open = earlier().map(|bar| bar.time);
    state.short_open = earlier().map(|bar| bar.time);
    let reference = earlier();
    state.reference = reference.map(|bar| Reference {
        bar,
        operate: *rng.pick(&[LO, SO]),
        event: event(rng, events),
    });
    state.changed = rng.once_in(2);
}

/// A copy of a book, changed in one field of its header, of a hold or of a record.
pub fn fault(rng: &mut Rng, book: &[u8]) -> Vec<u8> {
    let mut copy = book.to_vec();
    if copy.len() < 160 {
        return copy;
    }
    let count = |at: usize| u32::from_le_bytes(book[at..at + 4].try_into().unwrap()) as usize;
    let slots = (copy.len() - 96) / 64;
    let [holds, records] = [count(0), count(4)].map(|count| count.clamp(1, slots));
    let (start, fields): (usize, &[usize]) = match rng.below(6) {
        0 => (96 + 32 * (holds - 1), &HOLD),
        1 => (96 + 32 * rng.below(holds), &HOLD),
        2 => (96 + 32 * (slots + rng.below(records)), &RECORD),
        _ => (0, &HEADER),
    };
    let number = rng.below(fields.len() - 1);
    let (from, to) = (start + fields[number], start + fields[number + 1]);
    if start >= 128 && rng.once_in(4) {
        copy.copy_within(from - 32..to - 32, from);
    } else {
        change(rng, &mut copy[from..to], DOUBLES.contains(&fields[number]));
    }
    copy
}

/// Gives a field another value: one more, one less, a limit of its kind, or any.
fn change(rng: &mut Rng, field: &mut [u8], is_double: bool) {
    let mut bytes = [0; 8];
    bytes[..field.len()].copy_from_slice(field);
    let now = u64::from_le_bytes(bytes);
    let value = match (rng.below(6), field.len()) {
        (0, _) => now.wrapping_add(1),
        (1, _) => now.wrapping_sub(1),
        (2, _) => rng.bits(),
        (_, 1) => rng.below(8) as u64,
        (_, 2) => *rng.pick(&[0, 1, 2, 31, 32, 256, 999, 1_000, 1_001, 1_256, 65_535]),
        (_, 4) => *rng.pick(&[0, -1, 1, 86_399, 86_400, -86_399, -86_400, LAST_ID, 1 << 31]) as u64,
        _ if is_double => double(rng),
        _ => *rng.pick(&[0, -1, LAST_INSTANT, LAST_INSTANT + 1, i64::MIN, i64::MAX]) as u64,
    };
    let width = field.len();
    field.copy_from_slice(&value.to_le_bytes()[..width]);
}
