//! Document 01, "Texts": lines and fields, signals, operates, the position sheet; its stop by document 02, W2, its
//! evening by W3, its lots by W4, its scores by W8.

use super::{Answer, number, put, require};
use position_book::raw::{NameAnswer, OperateAnswer, SignalAnswer};

const TEXT_LIMIT: usize = 16_384;
const EVENT_LIMIT: usize = 32;
const CLAUSE_LIMIT: usize = 256;
pub const NAME_LIMIT: usize = 256;
pub const INTERVAL_LIMIT: u32 = 4_102_444_800;
pub const TIMEOUT_LIMIT: u32 = 2_147_483_647;
/// In hundredths of a basis point.
pub const STOP_LIMIT: u32 = 100_000_000;
/// In minutes.
pub const EVENING_LIMIT: u16 = 1_439;
pub const LOTS_LIMIT: u16 = 1_000;
pub const SCORE_LIMIT: i32 = 1_000;
pub const WILDCARD: &str = "任意";

/// Both spellings of each operate, by its code.
pub const OPERATES: [[&str; 2]; 7] = [
    ["HL", "持多"],
    ["HS", "持空"],
    ["HO", "持币"],
    ["LO", "开多"],
    ["LE", "平多"],
    ["SO", "开空"],
    ["SE", "平空"],
];

#[derive(Debug)]
pub struct Sheet {
    pub name: String,
    pub symbol: String,
    pub interval: u32,
    pub timeout: u32,
    /// In hundredths of a basis point.
    pub stop: u32,
    pub t0: bool,
    /// How many minutes before midnight the trading day opens.
    pub evening: u16,
    pub events: Vec<Event>,
}

#[derive(Debug)]
pub struct Event {
    pub exit: bool,
    pub operate: u8,
    pub name: String,
    /// What it opens a position with: 1 of an exit.
    pub lots: u16,
    pub clauses: Vec<Clause>,
}

#[derive(Debug)]
pub struct Clause {
    pub kind: Kind,
    pub signal: Signal,
}

#[derive(Clone, Copy, Debug, PartialEq)]
pub enum Kind {
    All,
    Any,
    Not,
}

/// A signal: its key without wildcards, its three values (a wild one is the wildcard's text), its score.
#[derive(Debug)]
pub struct Signal {
    pub key: String,
    pub values: [String; 3],
    pub score: i32,
}

impl Sheet {
    /// The stop in basis points: hundredths divided by 100, rounded once.
    pub fn stop_points(&self) -> f64 {
        f64::from(self.stop) / 100.0
    }

    /// All clauses in the order of the sheet's lines.
    pub fn clauses(&self) -> impl Iterator<Item = &Clause> {
        self.events.iter().flat_map(|event| &event.clauses)
    }
}

/// A text within its limit (7), in UTF-8 (1).
pub fn read_text(bytes: &[u8]) -> Answer<&str> {
    require(bytes.len() <= TEXT_LIMIT, 7)?;
    std::str::from_utf8(bytes).map_err(|_| 1)
}

/// A text that stands alone: no `|` and no LF (2).
fn text_alone(bytes: &[u8]) -> Answer<&str> {
    let text = read_text(bytes)?;
    require(!text.contains(['|', '\n']), 2)?;
    Ok(text)
}

/// The fields of a line, whose LF must be there (2).
pub fn fields(line: &str) -> Answer<Vec<&str>> {
    let line = line.strip_suffix('\n').ok_or(2u32)?;
    Ok(line.split('|').collect())
}

/// An unsigned field, 1 to 10 digits (3).
fn whole(field: &str) -> Answer<u64> {
    let digits = field.bytes().all(|byte| byte.is_ascii_digit());
    require(digits && (1..=10).contains(&field.len()), 3)?;
    Ok(field.parse().unwrap())
}

/// An unsigned field up to a limit (3).
fn unsigned(field: &str, limit: u32) -> Answer<u32> {
    let value = whole(field)?;
    require(value <= u64::from(limit), 3)?;
    Ok(value as u32)
}

/// A stop in hundredths: an unsigned field, then perhaps a point and one or two digits, up to its limit (3).
fn read_stop(field: &str) -> Answer<u32> {
    let (whole, decimals) = field.split_once('.').unwrap_or((field, "0"));
    let tenfold = match decimals.len() {
        1 => 10,
        2 => 1,
        _ => return Err(3),
    };
    let hundredths = 100 * unsigned(whole, 1_000_000)? + tenfold * unsigned(decimals, 99)?;
    require(hundredths <= STOP_LIMIT, 3)?;
    Ok(hundredths)
}

/// The minutes of a seventh value, up to their limit (3); 0 without it.
fn read_evening(field: Option<&str>) -> Answer<u16> {
    let minutes = field.map_or(Ok(0), |field| unsigned(field, EVENING_LIMIT.into()));
    minutes.map(|minutes| minutes as u16)
}

/// Lots, an unsigned field (3) in their range (18); 1 without it.
fn read_lots(field: Option<&str>) -> Answer<u16> {
    let lots = field.map_or(Ok(1), whole)?;
    require((1..=u64::from(LOTS_LIMIT)).contains(&lots), 18)?;
    Ok(lots as u16)
}

/// A name or symbol within its limit (7).
fn name_field(field: &str) -> Answer<String> {
    require(field.len() <= NAME_LIMIT, 7)?;
    Ok(field.to_string())
}

/// A sign or none, then digits, fitting i32: what Rust's own reading of an i32 takes.
pub fn read_score(text: &str) -> Option<i32> {
    text.parse().ok()
}

/// A signal of 7 parts (5) with a score in its range (6).
fn read_signal(text: &str) -> Answer<Signal> {
    let parts: Vec<&str> = text.split('_').collect();
    let [k1, k2, k3, v1, v2, v3, score] = parts[..] else {
        return Err(5);
    };
    let score = read_score(score).ok_or(6u32)?;
    require((0..=SCORE_LIMIT).contains(&score), 6)?;
    let keys = [k1, k2, k3].into_iter().filter(|part| *part != WILDCARD);
    Ok(Signal {
        key: keys.collect::<Vec<_>>().join("_"),
        values: [v1, v2, v3].map(str::to_string),
        score,
    })
}

/// The code of an operate in either spelling (4).
fn read_operate(text: &str) -> Answer<u8> {
    let code = OPERATES.iter().position(|names| names.contains(&text));
    code.map(|code| code as u8).ok_or(4)
}

/// Reads a position sheet.
pub fn read_sheet(bytes: &[u8]) -> Answer<Sheet> {
    let mut lines = read_text(bytes)?.split_inclusive('\n');
    let mut sheet = first_line(lines.next().ok_or(2u32)?)?;
    for line in lines {
        later_line(&mut sheet, line)?;
    }
    Ok(sheet)
}

/// The first line: its tag and six values, or seven (2).
fn first_line(line: &str) -> Answer<Sheet> {
    let fields = fields(line)?;
    let (first, evening) = match &fields[..] {
        [first @ .., evening] if first.len() == 7 => (first, Some(*evening)),
        first => (first, None),
    };
    let ["P", name, symbol, interval, timeout, stop, t0] = *first else {
        return Err(2);
    };
    Ok(Sheet {
        name: name_field(name)?,
        symbol: name_field(symbol)?,
        interval: unsigned(interval, INTERVAL_LIMIT)?,
        timeout: unsigned(timeout, TIMEOUT_LIMIT)?,
        stop: read_stop(stop)?,
        t0: unsigned(t0, 1)? == 1,
        evening: read_evening(evening)?,
        events: Vec::new(),
    })
}

fn later_line(sheet: &mut Sheet, line: &str) -> Answer<()> {
    match fields(line)?[..] {
        ["O", operate, name] => add_event(sheet, false, operate, name, None),
        ["O", operate, name, lots] => add_event(sheet, false, operate, name, Some(lots)),
        ["X", operate, name] => add_event(sheet, true, operate, name, None),
        ["A", signal] => add_clause(sheet, Kind::All, signal),
        ["Y", signal] => add_clause(sheet, Kind::Any, signal),
        ["N", signal] => add_clause(sheet, Kind::Not, signal),
        _ => Err(2),
    }
}

fn add_event(
    sheet: &mut Sheet,
    exit: bool,
    operate: &str,
    name: &str,
    lots: Option<&str>,
) -> Answer<()> {
    require(exit || sheet.events.iter().all(|event| !event.exit), 2)?;
    let event = Event {
        exit,
        operate: read_operate(operate)?,
        name: name_field(name)?,
        lots: read_lots(lots)?,
        clauses: Vec::new(),
    };
    sheet.events.push(event);
    require(sheet.events.len() <= EVENT_LIMIT, 7)
}

fn add_clause(sheet: &mut Sheet, kind: Kind, signal: &str) -> Answer<()> {
    let event = sheet.events.last_mut().ok_or(2u32)?;
    let signal = read_signal(signal)?;
    event.clauses.push(Clause { kind, signal });
    require(sheet.clauses().count() <= CLAUSE_LIMIT, 7)
}

/// A signal alone: its key and values go to the start of `out`, which is as long as the text or longer (8).
fn signal_alone(text: &[u8], out: &[u8]) -> Answer<Signal> {
    let signal = read_signal(text_alone(text)?)?;
    require(out.len() >= text.len(), 8)?;
    Ok(signal)
}

/// The call `signal`.
pub fn signal(text: &[u8], out: &mut [u8]) -> SignalAnswer {
    let answer = signal_alone(text, out);
    let number = number(&answer);
    let Ok(Signal { key, values, score }) = answer else {
        return SignalAnswer {
            number,
            score: 0,
            key: 0,
            v1: 0,
            v2: 0,
            v3: 0,
        };
    };
    put(out, (key.clone() + &values.concat()).as_bytes());
    let [v1, v2, v3] = values.map(|value| value.len());
    SignalAnswer {
        number,
        score: score as u64,
        key: key.len(),
        v1,
        v2,
        v3,
    }
}

/// The call `operate`.
pub fn operate(text: &[u8]) -> OperateAnswer {
    let answer = text_alone(text).and_then(read_operate);
    OperateAnswer {
        number: number(&answer),
        code: answer.unwrap_or(0).into(),
    }
}

/// The Chinese name of a code (4), for which `out` has room (8).
fn name_of(code: u32, out: &[u8]) -> Answer<&'static str> {
    let names = OPERATES.get(code as usize).ok_or(4u32)?;
    require(out.len() >= names[1].len(), 8)?;
    Ok(names[1])
}

/// The call `operate_name`.
pub fn operate_name(code: u32, out: &mut [u8]) -> NameAnswer {
    let answer = name_of(code, out);
    let number = number(&answer);
    let name = answer.unwrap_or("");
    put(out, name.as_bytes());
    NameAnswer {
        number,
        length: name.len(),
    }
}
