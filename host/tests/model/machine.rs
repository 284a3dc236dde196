//! Document 01, "Bars and the plain machine": a bar, the state, and what an accepted bar does, step by step; its day by
//! document 02, W3, lots by W4.

use super::texts::Sheet;
use super::{Answer, require};

pub const LO: u8 = 3;
pub const LE: u8 = 4;
pub const SO: u8 = 5;
pub const SE: u8 = 6;
const HO: u8 = 2;
pub const SECOND: i64 = 1_000_000;
const MINUTE: i64 = 60_000_000;
const DAY: i64 = 86_400_000_000;

/// An instant in microseconds, UTC, and an offset in seconds.
#[derive(Clone, Copy, Debug, PartialEq)]
pub struct Time {
    pub instant: i64,
    pub offset: i32,
}

#[derive(Clone, Copy, Debug)]
pub struct Bar {
    pub id: i32,
    pub time: Time,
    pub price: f64,
}

#[derive(Clone, Copy, Debug, PartialEq)]
pub enum Pos {
    Short,
    Flat,
    Long,
}

/// The bar and the event of the last LO or SO.
#[derive(Clone, Copy, Debug)]
pub struct Reference {
    pub bar: Bar,
    pub operate: u8,
    pub event: u32,
}

/// What a record is described by.
#[derive(Clone, Copy, Debug)]
pub enum Why {
    Event(u32),
    Stop,
    Timeout,
}

#[derive(Clone, Copy, Debug)]
pub struct Record {
    pub bar: Bar,
    pub operate: u8,
    pub pos: Pos,
    pub why: Why,
    /// Those that an opening or a reversal opens, or that a closing closes.
    pub lots: u16,
}

#[derive(Clone, Copy, Debug)]
pub struct Hold {
    pub time: Time,
    pub pos: Pos,
    pub price: f64,
    pub bp: Option<f64>,
    /// 0 where it is Flat.
    pub lots: u16,
}

#[derive(Debug)]
pub struct State {
    pub pos: Pos,
    /// The open lots, 0 where it is Flat.
    pub lots: u16,
    pub changed: bool,
    pub end: Time,
    pub long_open: Option<Time>,
    pub short_open: Option<Time>,
    pub reference: Option<Reference>,
    pub records: Vec<Record>,
    pub holds: Vec<Hold>,
}

impl Time {
    /// The time on the wall clock, in microseconds.
    pub fn local(self) -> i64 {
        self.instant + i64::from(self.offset) * SECOND
    }

    /// The trading day, which opens so many minutes before midnight.
    fn day(self, evening: u16) -> i64 {
        (self.local() + i64::from(evening) * MINUTE).div_euclid(DAY)
    }

    /// Whole seconds from an earlier time.
    pub fn seconds_since(self, earlier: Time) -> i64 {
        (self.instant - earlier.instant) / SECOND
    }

    pub fn in_range(self) -> bool {
        (0..=4_102_444_799_999_999).contains(&self.instant)
            && (-86_399..=86_399).contains(&self.offset)
    }
}

impl State {
    /// No bars.
    pub fn fresh() -> State {
        State {
            pos: Pos::Flat,
            lots: 0,
            changed: false,
            end: Time {
                instant: 0,
                offset: 0,
            },
            long_open: None,
            short_open: None,
            reference: None,
            records: Vec::new(),
            holds: Vec::new(),
        }
    }
}

impl Pos {
    /// -1, 0 or 1.
    pub fn sign(self) -> i32 {
        self as i32 - 1
    }
}

impl Bar {
    pub fn in_range(self) -> bool {
        self.id >= 0 && self.time.in_range() && self.price.is_finite()
    }
}

/// A bar of numbers, each in its range (11).
pub fn bar_of(id: i64, instant: i64, offset: i64, price: f64) -> Answer<Bar> {
    let id = i32::try_from(id).map_err(|_| 11u32)?;
    let offset = i32::try_from(offset).map_err(|_| 11u32)?;
    let time = Time { instant, offset };
    let bar = Bar { id, time, price };
    require(bar.in_range(), 11)?;
    Ok(bar)
}

/// An accepted bar for which an event, or none, was chosen.
pub fn step(sheet: &Sheet, state: &mut State, bar: Bar, chosen: Option<u32>) {
    state.changed = false;
    let operate = chosen.map_or(HO, |event| sheet.events[event as usize].operate);
    state.end = bar.time;
    if let (LO | SO, Some(event)) = (operate, chosen) {
        state.reference = Some(Reference {
            bar,
            operate,
            event,
        });
        open(sheet, state, bar, operate, event);
    }
    let by_event = |closing: u8| chosen.filter(|_| operate == closing);
    match state.pos {
        Pos::Long => close(sheet, state, bar, by_event(LE), LE),
        Pos::Short => close(sheet, state, bar, by_event(SE), SE),
        Pos::Flat => {}
    }
    add_hold(state, bar);
}

/// Steps 3 and 4: opens the side of an LO or SO, or else closes the other one.
fn open(sheet: &Sheet, state: &mut State, bar: Bar, operate: u8, event: u32) {
    let (side, other, closing) = match operate {
        LO => (Pos::Long, Pos::Short, SE),
        _ => (Pos::Short, Pos::Long, LE),
    };
    let last = last_open(state, side);
    let seconds = last.map(|last| bar.time.seconds_since(last));
    let allowed = seconds.is_none_or(|seconds| seconds > i64::from(sheet.interval));
    if allowed && state.pos != side {
        match operate {
            LO => state.long_open = Some(bar.time),
            _ => state.short_open = Some(bar.time),
        }
        let lots = sheet.events[event as usize].lots;
        record(state, bar, operate, (side, lots), Why::Event(event));
    } else if state.pos == other && may_close(sheet, state, bar) {
        record(state, bar, closing, FLAT, Why::Event(event));
    }
}

/// The last open of a side.
fn last_open(state: &State, side: Pos) -> Option<Time> {
    match side {
        Pos::Long => state.long_open,
        _ => state.short_open,
    }
}

/// Whether the position held may be closed today: t0, or no last open of its side, or one of another trading day.
fn may_close(sheet: &Sheet, state: &State, bar: Bar) -> bool {
    let last = last_open(state, state.pos);
    let day = |time: Time| time.day(sheet.evening);
    sheet.t0 || last.is_none_or(|last| day(last) != day(bar.time))
}

/// Steps 5 and 6: closes the position held by the event, the stop or the timeout.
fn close(sheet: &Sheet, state: &mut State, bar: Bar, by_event: Option<u32>, closing: u8) {
    let Some(reference) = state.reference.filter(|_| may_close(sheet, state, bar)) else {
        return;
    };
    let ratio = bar.price / reference.bar.price;
    let gain = if closing == LE {
        ratio - 1.0
    } else {
        1.0 - ratio
    };
    let why = if let Some(event) = by_event {
        Why::Event(event)
    } else if gain < -sheet.stop_points() / 10000.0 {
        Why::Stop
    } else if i64::from(bar.id) - i64::from(reference.bar.id) > i64::from(sheet.timeout) {
        Why::Timeout
    } else {
        return;
    };
    record(state, bar, closing, FLAT, why);
}

/// No position, and no lots.
const FLAT: (Pos, u16) = (Pos::Flat, 0);

/// Takes a position with its lots and records it, by its lots or, where it is none, by those that were open.
fn record(state: &mut State, bar: Bar, operate: u8, (pos, lots): (Pos, u16), why: Why) {
    let closed = std::mem::replace(&mut state.lots, lots);
    state.pos = pos;
    state.changed = true;
    state.records.push(Record {
        bar,
        operate,
        pos,
        why,
        lots: if pos == Pos::Flat { closed } else { lots },
    });
}

/// Step 7: the previous hold's yield, and a hold without one.
fn add_hold(state: &mut State, bar: Bar) {
    if let Some(hold) = state.holds.last_mut().filter(|hold| hold.price > 0.0) {
        hold.bp = Some((bar.price / hold.price - 1.0) * 10000.0);
    }
    state.holds.push(Hold {
        time: bar.time,
        pos: state.pos,
        price: bar.price,
        bp: None,
        lots: state.lots,
    });
}
