//! Document 01, "Rows and answers": pair rows, hold rows, an event's name.

use super::book::checked;
use super::machine::{Hold, LE, LO, Record, SE, SO, State, Why};
use super::table::{self, read_table};
use super::texts::{NAME_LIMIT, OPERATES, Sheet};
use super::{Answer, number, put, require};
use position_book::raw::{HoldAnswer, NameAnswer, PairAnswer};

const ROW_BUFFER: usize = 2_048;

/// The row at an index from 0 (15).
fn row_at<T>(mut rows: impl Iterator<Item = T>, index: i64) -> Answer<T> {
    let index = usize::try_from(index).map_err(|_| 15u32)?;
    rows.nth(index).ok_or(15)
}

/// Neighbouring records whose first is LO or SO.
pub fn pairs(state: &State) -> impl Iterator<Item = (Record, Record)> {
    let neighbours = state.records.windows(2).map(|pair| (pair[0], pair[1]));
    neighbours.filter(|(first, _)| [LO, SO].contains(&first.operate))
}

/// A pair's yield, absent if the opening price is 0 or -0.
fn pair_yield(open: &Record, close: &Record) -> Option<f64> {
    if open.bar.price == 0.0 {
        return None;
    }
    let ratio = close.bar.price / open.bar.price;
    let gain = if open.operate == LO {
        ratio - 1.0
    } else {
        1.0 - ratio
    };
    Some((gain * 10000.0 * 100.0).round() / 100.0)
}

/// A record's description.
fn description(sheet: &Sheet, record: &Record) -> String {
    let closing = if record.operate == SE {
        "平空"
    } else {
        "平多"
    };
    match record.why {
        Why::Event(event) => sheet.events[event as usize].name.clone(),
        Why::Stop => format!("{closing}@{}BP止损", sheet.stop_points()),
        Why::Timeout => format!("{closing}@{}K超时", sheet.timeout),
    }
}

/// A description as it stands in a sequence.
fn sequence_part(description: &str) -> String {
    if description.contains('@') {
        return description.to_string();
    }
    let spelt = |name: &str| description.starts_with(&format!("{name}#"));
    let names = [LO, SO, LE, SE].map(|operate| OPERATES[usize::from(operate)]);
    let tag = names
        .iter()
        .find(|names| names.iter().any(|name| spelt(name)));
    format!("{description}@{}", tag.map_or("is_match", |names| names[0]))
}

fn sequence(sheet: &Sheet, open: &Record, close: &Record) -> String {
    let [open, close] = [open, close].map(|record| sequence_part(&description(sheet, record)));
    format!("{open} -> {close}")
}

/// The sheet and the pair that a row request asks for: 8, 9, 10, 15.
fn pair_at(table: &[u8], book: &[u8], index: i64, room: usize) -> Answer<(Sheet, Record, Record)> {
    require(room >= ROW_BUFFER, 8)?;
    let (sheet, state) = checked(table, book)?;
    let (open, close) = row_at(pairs(&state), index)?;
    Ok((sheet, open, close))
}

/// The call `pair_row`.
pub fn pair_row(table: &[u8], book: &[u8], index: i64, buffer: &mut [u8]) -> PairAnswer {
    match pair_at(table, book, index, buffer.len()) {
        Ok((sheet, open, close)) => found_pair(&sheet, &open, &close, buffer),
        Err(number) => refused_pair(number),
    }
}

fn found_pair(sheet: &Sheet, open: &Record, close: &Record, buffer: &mut [u8]) -> PairAnswer {
    let sequence = sequence(sheet, open, close);
    let bp = pair_yield(open, close);
    put(
        buffer,
        [&sheet.symbol, &sheet.name, &sequence]
            .map(String::as_str)
            .concat()
            .as_bytes(),
    );
    PairAnswer {
        number: 0,
        side: if open.operate == LO { 1 } else { -1 },
        opened: open.bar.time.local(),
        closed: close.bar.time.local(),
        from: open.bar.price,
        to: close.bar.price,
        ids: i64::from(close.bar.id) - i64::from(open.bar.id),
        days: close.bar.time.seconds_since(open.bar.time) as f64 / 86400.0,
        present: bp.is_some().into(),
        bp: bp.unwrap_or(0.0),
        symbol: sheet.symbol.len(),
        mark: sheet.name.len(),
        sequence: sequence.len(),
        lots: open.lots.into(),
    }
}

fn refused_pair(number: u32) -> PairAnswer {
    PairAnswer {
        number,
        side: 0,
        opened: 0,
        closed: 0,
        from: 0.0,
        to: 0.0,
        ids: 0,
        days: 0.0,
        present: 0,
        bp: 0.0,
        symbol: 0,
        mark: 0,
        sequence: 0,
        lots: 0,
    }
}

fn hold_at(table: &[u8], book: &[u8], index: i64) -> Answer<Hold> {
    let (_, state) = checked(table, book)?;
    row_at(state.holds.into_iter(), index)
}

/// The call `hold_row`.
pub fn hold_row(table: &[u8], book: &[u8], index: i64) -> HoldAnswer {
    match hold_at(table, book, index) {
        Ok(hold) => HoldAnswer {
            number: 0,
            local: hold.time.local(),
            pos: hold.pos.sign(),
            price: hold.price,
            present: hold.bp.is_some().into(),
            bp: hold.bp.unwrap_or(0.0),
        },
        Err(number) => HoldAnswer {
            number,
            local: 0,
            pos: 0,
            price: 0.0,
            present: 0,
            bp: 0.0,
        },
    }
}

fn name_at(table: &[u8], index: i64, room: usize) -> Answer<String> {
    require(table.len() == table::LENGTH && room >= NAME_LIMIT, 8)?;
    let sheet = read_table(table)?;
    Ok(row_at(sheet.events.into_iter(), index)?.name)
}

/// The call `event_name`.
pub fn event_name(table: &[u8], index: i64, buffer: &mut [u8]) -> NameAnswer {
    let answer = name_at(table, index, buffer.len());
    let number = number(&answer);
    let name = answer.unwrap_or_default();
    put(buffer, name.as_bytes());
    NameAnswer {
        number,
        length: name.len(),
    }
}
