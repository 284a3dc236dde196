//! Their side: a position of the unchanged Rust.

use crate::shown::{Hold, HoldRow, PairRow, Record, Reference, Shown, Time};
use chrono::{DateTime, FixedOffset, NaiveDateTime, TimeZone};
use inputs::{Bar, Kind, Sheet};
use polars::{Column, DataFrame, PARSE_OPERATE};
use reference::objects::event::Event;
use reference::objects::position::{
    HoldRecord, LastEvent, LiteBar, OperateRecord, Pos, Position, PositionRuntimeState,
};
use reference::objects::signal::Signal;
use std::collections::HashMap;

/// A position without events, as serde reads it. Made this way, event names are not hashed again.
const EMPTY: &str = r#"{"opens":[],"exits":[],"interval":0,"timeout":0,"stop_loss":0.0,"T0":false,"name":"","symbol":""}"#;

pub struct Theirs {
    position: Position,
    image: Option<PositionRuntimeState>,
}

impl Theirs {
    /// A position by a sheet, all of which the Rust must read.
    pub fn new(sheet: &Sheet) -> Result<Theirs, String> {
        Ok(Theirs {
            position: position(sheet)?,
            image: None,
        })
    }

    pub fn feed(&mut self, bar: &Bar) {
        let map: HashMap<String, String> = bar.signals.iter().cloned().collect();
        self.position
            .update_profiled_with_signal_map(lite_bar(bar), None, Some(&map));
    }

    pub fn save(&mut self) {
        self.image = Some(self.position.export_runtime_state());
    }

    /// Restores the last image, into the position or into a new one of the sheet.
    pub fn restore(&mut self, elsewhere: Option<&Sheet>) -> Result<(), String> {
        if let Some(sheet) = elsewhere {
            self.position = position(sheet)?;
        }
        if let Some(image) = &self.image {
            self.position.import_runtime_state(image.clone());
        }
        Ok(())
    }

    /// The position after the last bar that was not late, and whether that bar changed it.
    pub fn standing(&self) -> (i32, bool) {
        (
            sign(self.position.get_pos()),
            self.position.get_pos_changed(),
        )
    }

    pub fn state(&self) -> PositionRuntimeState {
        self.position.export_runtime_state()
    }

    pub fn shown(&self) -> Shown {
        let state = self.state();
        let (pos, changed) = self.standing();
        let temp = state.temp_state.as_ref();
        Shown {
            pos,
            changed,
            end: temp.map(|temp| time(temp.end_dt)),
            long_open: temp.and_then(|temp| temp.last_lo_dt).map(time),
            short_open: temp.and_then(|temp| temp.last_so_dt).map(time),
            reference: state.last_event.as_ref().map(reference),
            records: state.operates.iter().map(record).collect(),
            holds: state.holds.iter().map(hold).collect(),
            pairs: pair_rows(self.position.pairs().expect("the Rust makes its pairs")),
            hold_rows: hold_rows(self.position.holds().expect("the Rust makes its holds")),
        }
    }
}

/// What position.rs's `parse_operate` says of a text: the operate's Chinese name, or nothing.
pub fn parse_operate(text: &str) -> Option<&'static str> {
    if PARSE_OPERATE.get().is_none() {
        empty().pairs().expect("the Rust makes its pairs");
    }
    PARSE_OPERATE.get().expect("a frame was made")(text)
}

fn empty() -> Position {
    serde_json::from_str(EMPTY).expect("the Rust reads a position")
}

/// The Rust's position of a sheet, or what it says against it. Its days open at midnight, and it knows no others.
pub fn position(sheet: &Sheet) -> Result<Position, String> {
    if sheet.evening_minutes() != 0 {
        return Err("the Rust has no trading day that opens in the evening".into());
    }
    let events = |exit| {
        let events = sheet.events.iter().filter(move |event| event.exit == exit);
        events.map(event).collect::<Result<_, _>>()
    };
    let mut position = empty();
    position.opens = events(false)?;
    position.exits = events(true)?;
    position.interval = sheet.interval;
    position.timeout = sheet.timeout as i32;
    position.stop_loss = sheet.stop_points();
    position.t0 = sheet.t0;
    position.name = sheet.name.clone();
    position.symbol = sheet.symbol.clone();
    Ok(position)
}

fn event(event: &inputs::Event) -> Result<Event, String> {
    let signals = |kind| {
        let clauses = event
            .clauses
            .iter()
            .filter(move |clause| clause.kind == kind);
        clauses
            .map(|clause| signal(&clause.signal()))
            .collect::<Result<_, _>>()
    };
    let operate = parse_operate(&event.operate);
    let operate = operate.ok_or(format!("the Rust refuses the operate {:?}", event.operate))?;
    Ok(Event {
        operate: serde_json::from_value(operate.into())
            .expect("serde reads an operate's Chinese name"),
        signals_all: signals(Kind::All)?,
        signals_any: signals(Kind::Any)?,
        signals_not: signals(Kind::Not)?,
        name: event.name.clone(),
        sha256: String::new(),
    })
}

fn signal(text: &str) -> Result<Signal, String> {
    text.parse()
        .map_err(|_| format!("the Rust refuses the signal {text:?}"))
}

/// A bar without its signals, as the Rust takes it.
pub fn lite_bar(bar: &Bar) -> LiteBar {
    LiteBar {
        id: bar.id as i32,
        dt: date_time(bar),
        price: bar.price,
    }
}

fn date_time(bar: &Bar) -> DateTime<FixedOffset> {
    let offset = FixedOffset::east_opt(bar.offset as i32).expect("an offset in range");
    let nanos = bar.instant.rem_euclid(1_000_000) as u32 * 1_000;
    offset
        .timestamp_opt(bar.instant.div_euclid(1_000_000), nanos)
        .single()
        .expect("an instant in range")
}

fn time(dt: DateTime<FixedOffset>) -> Time {
    Time {
        instant: dt.timestamp_micros(),
        offset: dt.offset().local_minus_utc(),
    }
}

fn sign(pos: Pos) -> i32 {
    match pos {
        Pos::Short => -1,
        Pos::Flat => 0,
        Pos::Long => 1,
    }
}

fn reference(event: &LastEvent) -> Reference {
    Reference {
        time: time(event.dt),
        id: event.bar_id,
        price: event.price.to_bits(),
        operate: event.op as u32,
        name: event.op_desc.clone().unwrap_or_default(),
    }
}

fn record(record: &OperateRecord) -> Record {
    Record {
        time: time(record.dt),
        id: record.bar_id,
        price: record.price.to_bits(),
        operate: record.op as u32,
        pos: sign(record.pos),
        description: record.op_desc.clone().unwrap_or_default(),
    }
}

fn hold(hold: &HoldRecord) -> Hold {
    Hold {
        time: time(hold.dt),
        pos: sign(hold.pos),
        price: hold.price.to_bits(),
        bp: hold.n1b.map(f64::to_bits),
    }
}

fn local(time: &NaiveDateTime) -> i64 {
    time.timestamp_micros()
}

fn pair_rows(frame: DataFrame) -> Vec<PairRow> {
    use Column::*;
    let [
        Text(symbol),
        Text(mark),
        Text(side),
        Time(opened),
        Time(closed),
        Double(from),
        Double(to),
        Int(ids),
        Text(sequence),
        Double(days),
        Maybe(bp),
    ] = &frame.0[..]
    else {
        panic!("the Rust's pairs have other columns");
    };
    (0..symbol.len())
        .map(|row| PairRow {
            symbol: symbol[row].clone(),
            mark: mark[row].clone(),
            side: match side[row].as_str() {
                "多头" => 1,
                "空头" => -1,
                _ => 0,
            },
            opened: local(&opened[row]),
            closed: local(&closed[row]),
            from: from[row].to_bits(),
            to: to[row].to_bits(),
            ids: i64::from(ids[row]),
            sequence: sequence[row].clone(),
            days: days[row].to_bits(),
            bp: bp[row].map(f64::to_bits),
        })
        .collect()
}

fn hold_rows(frame: DataFrame) -> Vec<HoldRow> {
    let [
        Column::Time(dt),
        Column::Int(pos),
        Column::Double(price),
        Column::Maybe(n1b),
    ] = &frame.0[..]
    else {
        panic!("the Rust's holds have other columns");
    };
    (0..dt.len())
        .map(|row| HoldRow {
            local: local(&dt[row]),
            pos: pos[row],
            price: price[row].to_bits(),
            bp: n1b[row].map(f64::to_bits),
        })
        .collect()
}
