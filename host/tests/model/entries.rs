//! Document 01, "Book": a hold and a record of 32 bytes, and what they and the header are made of; lots by document 02, W4.

use super::machine::{Bar, Hold, LE, LO, Pos, Record, SE, SO, Time, Why};
use super::texts::LOTS_LIMIT;
use super::{bytes_at, put};

fn u16_at(bytes: &[u8], at: usize) -> u16 {
    u16::from_le_bytes(bytes_at(bytes, at))
}

pub fn i32_at(bytes: &[u8], at: usize) -> i32 {
    i32::from_le_bytes(bytes_at(bytes, at))
}

fn i64_at(bytes: &[u8], at: usize) -> i64 {
    i64::from_le_bytes(bytes_at(bytes, at))
}

pub fn f64_at(bytes: &[u8], at: usize) -> f64 {
    f64::from_le_bytes(bytes_at(bytes, at))
}

/// A presence byte, 0 or 1.
pub fn flag(byte: u8) -> Option<bool> {
    (byte <= 1).then_some(byte == 1)
}

pub fn pos_of(byte: u8) -> Option<Pos> {
    [Pos::Short, Pos::Flat, Pos::Long]
        .get(usize::from(byte))
        .copied()
}

/// What is read if it is present, where zero bytes stand if it is absent.
pub fn optional<T>(present: bool, bytes: &[u8], value: Option<T>) -> Option<Option<T>> {
    if present {
        value.map(Some)
    } else {
        bytes.iter().all(|byte| *byte == 0).then_some(None)
    }
}

/// A time in range whose instant and offset stand at two places.
pub fn time_at(bytes: &[u8], instant: usize, offset: usize) -> Option<Time> {
    let time = Time {
        instant: i64_at(bytes, instant),
        offset: i32_at(bytes, offset),
    };
    Some(time).filter(|time| time.in_range())
}

/// A hold in range.
pub fn read_hold(bytes: &[u8]) -> Option<Hold> {
    let bp = Some(f64_at(bytes, 24)).filter(|bp| !bp.is_nan());
    let pos = pos_of(bytes[12])?;
    let lots = match (pos, u16_at(bytes, 14)) {
        (Pos::Flat, 0) => 0,
        (Pos::Flat, _) => return None,
        (_, lots) => read_lots(lots)?,
    };
    let hold = Hold {
        time: time_at(bytes, 0, 8)?,
        pos,
        price: f64_at(bytes, 16),
        bp: optional(flag(bytes[13])?, &bytes[24..32], bp)?,
        lots,
    };
    Some(hold).filter(|hold| hold.price.is_finite())
}

/// Lots of a position or a record in range: none are 1.
fn read_lots(lots: u16) -> Option<u16> {
    (lots <= LOTS_LIMIT).then_some(lots.max(1))
}

/// A record in range.
pub fn read_record(bytes: &[u8]) -> Option<Record> {
    let bar = Bar {
        id: i32_at(bytes, 12),
        time: time_at(bytes, 0, 8)?,
        price: f64_at(bytes, 16),
    };
    let why = match (bytes[26], u16_at(bytes, 28)) {
        (1, event) => Why::Event(event.into()),
        (2, 0) => Why::Stop,
        (3, 0) => Why::Timeout,
        _ => return None,
    };
    let operate = bytes[24];
    let pos = pos_of(bytes[25])?;
    let fine = bar.in_range() && bytes[27] == 0 && [LO, LE, SO, SE].contains(&operate);
    fine.then_some(Record {
        bar,
        operate,
        pos,
        why,
        lots: read_lots(u16_at(bytes, 30))?,
    })
}

pub fn put_time(bytes: &mut [u8], instant: usize, offset: usize, time: Time) {
    put(&mut bytes[instant..], &time.instant.to_le_bytes());
    put(&mut bytes[offset..], &time.offset.to_le_bytes());
}

pub fn put_hold(bytes: &mut [u8], hold: &Hold) {
    put_time(bytes, 0, 8, hold.time);
    bytes[12..14].copy_from_slice(&[hold.pos as u8, hold.bp.is_some().into()]);
    put(&mut bytes[14..], &hold.lots.to_le_bytes());
    put(&mut bytes[16..], &hold.price.to_le_bytes());
    put(&mut bytes[24..], &hold.bp.unwrap_or(0.0).to_le_bytes());
}

pub fn put_record(bytes: &mut [u8], record: &Record) {
    let (why, event) = why_numbers(record.why);
    put_time(bytes, 0, 8, record.bar.time);
    put(&mut bytes[12..], &record.bar.id.to_le_bytes());
    put(&mut bytes[16..], &record.bar.price.to_le_bytes());
    bytes[24..28].copy_from_slice(&[record.operate, record.pos as u8, why as u8, 0]);
    put(&mut bytes[28..], &(event as u16).to_le_bytes());
    put(&mut bytes[30..], &record.lots.to_le_bytes());
}

/// A description's number and its event, 0 where there is none.
pub fn why_numbers(why: Why) -> (u32, u32) {
    match why {
        Why::Event(event) => (1, event),
        Why::Stop => (2, 0),
        Why::Timeout => (3, 0),
    }
}
