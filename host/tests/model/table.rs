//! Document 01, "Table", with the bytes of docs/TABLE.md: a sheet as a table, which bytes are a table and which sheet they mean.

use super::texts::{
    Clause, EVENING_LIMIT, Event, INTERVAL_LIMIT, Kind, LOTS_LIMIT, NAME_LIMIT, SCORE_LIMIT,
    STOP_LIMIT, Sheet, Signal, TIMEOUT_LIMIT, WILDCARD, read_sheet,
};
use super::{Answer, bytes_at, number, put, require, u32_at};
use std::ops::Range;

pub const LENGTH: usize = 32_768;
const LAYOUT: u32 = 0xff00_0002;
const HEADER: usize = 80;
const EVENT_ROW: usize = 12;
const CLAUSE_ROW: usize = 12;
const WORD_ROW: usize = 8;
const WILD: u16 = 65_535;
const KINDS: [Kind; 3] = [Kind::All, Kind::Any, Kind::Not];
/// What the header's numbers behind the layout number may be: settings and counts. The fourth is two of 16 bits each,
/// which have limits of their own.
const LIMITS: [u32; 8] = [
    INTERVAL_LIMIT,
    TIMEOUT_LIMIT,
    STOP_LIMIT,
    u32::MAX,
    32,
    256,
    256,
    768,
];

/// The call `compile`.
pub fn compile(text: &[u8], table: &mut [u8]) -> u32 {
    let answer = require(table.len() == LENGTH, 8).and_then(|()| read_sheet(text));
    if let Ok(sheet) = &answer {
        let used = encode(sheet);
        table.fill(0);
        put(table, &used);
    }
    number(&answer)
}

/// The sheet that a table means (9).
pub fn read_table(table: &[u8]) -> Answer<Sheet> {
    decode(table).ok_or(9)
}

/// The used bytes of a sheet's table.
pub fn encode(sheet: &Sheet) -> Vec<u8> {
    let signals = || sheet.clauses().map(|clause| &clause.signal);
    let keys = first_uses(signals().map(|signal| &signal.key));
    let values = first_uses(
        signals()
            .flat_map(|signal| &signal.values)
            .filter(|v| *v != WILDCARD),
    );
    let rows = [
        event_rows(sheet),
        clause_rows(sheet, &keys, &values),
        word_rows(&keys),
        word_rows(&values),
    ];
    let names: String = sheet
        .events
        .iter()
        .map(|event| event.name.as_str())
        .collect();
    let texts = [
        sheet.name.clone() + &sheet.symbol,
        names,
        keys.concat(),
        values.concat(),
    ];
    let mut lengths: Vec<usize> = rows.iter().map(|rows| 2 * rows.len()).collect();
    lengths.extend(texts.iter().map(String::len));
    let counts = [
        sheet.events.len(),
        sheet.clauses().count(),
        keys.len(),
        values.len(),
    ];
    let mut used = header(sheet, counts, &lengths);
    used.extend(rows.concat().iter().flat_map(|number| number.to_le_bytes()));
    used.extend(texts.concat().bytes());
    used
}

/// The words that differ, in the order of their first use.
fn first_uses<'a>(words: impl Iterator<Item = &'a String>) -> Vec<&'a str> {
    let mut listed: Vec<&str> = Vec::new();
    for word in words {
        if !listed.contains(&word.as_str()) {
            listed.push(word);
        }
    }
    listed
}

/// The header: the layout number, settings, counts, the lengths of name and symbol, and where each of the parts starts
/// and the last ends.
fn header(sheet: &Sheet, counts: [usize; 4], lengths: &[usize]) -> Vec<u8> {
    let mut numbers = vec![LAYOUT, sheet.interval, sheet.timeout, sheet.stop];
    numbers.push(u32::from(sheet.evening) << 16 | u32::from(sheet.t0));
    numbers.extend(counts.map(|count| count as u32));
    numbers.extend([sheet.name.len() as u32, sheet.symbol.len() as u32]);
    let mut place = HEADER as u32;
    numbers.push(place);
    for length in lengths {
        place += *length as u32;
        numbers.push(place);
    }
    numbers
        .iter()
        .flat_map(|number| number.to_le_bytes())
        .collect()
}

/// An event's kind: 1 of an exit in the lowest bit, the lots beyond 1 in those above it.
fn kind_number(event: &Event) -> u16 {
    (event.lots.wrapping_sub(1) << 1) + u16::from(event.exit)
}

/// Whether an event of a kind is an exit, and its lots; an exit has 1.
fn read_kind(kind: u16) -> Option<(bool, u16)> {
    let (exit, lots) = (kind % 2 == 1, kind / 2 + 1);
    let most = if exit { 1 } else { LOTS_LIMIT };
    (lots <= most).then_some((exit, lots))
}

fn event_rows(sheet: &Sheet) -> Vec<u16> {
    let mut rows = Vec::new();
    let (mut name, mut clause) = (0, 0);
    for event in &sheet.events {
        let lengths = [event.name.len() as u16, event.clauses.len() as u16];
        rows.extend([
            kind_number(event),
            event.operate.into(),
            name,
            lengths[0],
            clause,
            lengths[1],
        ]);
        name += lengths[0];
        clause += lengths[1];
    }
    rows
}

fn clause_rows(sheet: &Sheet, keys: &[&str], values: &[&str]) -> Vec<u16> {
    let place = |words: &[&str], word: &str| words.iter().position(|w| *w == word);
    let code = |value: &String| place(values, value).map_or(WILD, |place| place as u16 + 1);
    let row = |clause: &Clause| {
        let Signal { key, values, score } = &clause.signal;
        let kind = KINDS.iter().position(|kind| *kind == clause.kind).unwrap() as u16;
        let [v1, v2, v3] = values.each_ref().map(code);
        [
            kind,
            place(keys, key).unwrap() as u16,
            v1,
            v2,
            v3,
            *score as u16,
        ]
    };
    sheet.clauses().flat_map(row).collect()
}

fn word_rows(words: &[&str]) -> Vec<u16> {
    let order = sorted(words);
    let mut rows = Vec::new();
    let mut start = 0;
    for (number, word) in words.iter().enumerate() {
        let rank = order.iter().position(|n| *n == number).unwrap();
        rows.extend([start, word.len() as u16, rank as u16, order[number] as u16]);
        start += word.len() as u16;
    }
    rows
}

/// The numbers of words, sorted by the words' bytes.
fn sorted<T: AsRef<str>>(words: &[T]) -> Vec<usize> {
    let mut order: Vec<usize> = (0..words.len()).collect();
    order.sort_by_key(|number| words[*number].as_ref());
    order
}

/// A header that is in range: its numbers, and the places of the parts.
struct Header {
    settings: [u32; 3],
    t0: bool,
    evening: u16,
    name: usize,
    events: Range<usize>,
    clauses: Range<usize>,
    keys: Range<usize>,
    values: Range<usize>,
    texts: Range<usize>,
    names: Range<usize>,
    key_texts: Range<usize>,
    value_texts: Range<usize>,
}

/// The sheet that bytes mean, if they are a table.
fn decode(table: &[u8]) -> Option<Sheet> {
    let header = read_header(table)?;
    let texts = &table[header.texts.clone()];
    let keys = read_words(table, &header.keys, &header.key_texts)?;
    let values = read_words(table, &header.values, &header.value_texts)?;
    let key_ok =
        |key: &String| key.matches('_').count() <= 2 && key.split('_').all(|k| k != WILDCARD);
    let value_ok = |value: &String| !value.contains('_') && value != WILDCARD;
    let fine = keys.iter().all(key_ok) && values.iter().all(value_ok);
    let clauses = read_clauses(&table[header.clauses.clone()], &keys, &values)?;
    let events = read_events(table, &header, clauses)?;
    let [interval, timeout, stop] = header.settings;
    fine.then_some(Sheet {
        name: clean(&texts[..header.name])?,
        symbol: clean(&texts[header.name..])?,
        interval,
        timeout,
        stop,
        t0: header.t0,
        evening: header.evening,
        events,
    })
}

/// The header of this layout; the numbers behind the layout number are in range, and the places follow each other.
fn read_header(table: &[u8]) -> Option<Header> {
    if u32_at(table, 0) != LAYOUT {
        return None;
    }
    let numbers: [u32; 19] = std::array::from_fn(|n| u32_at(table, 4 + 4 * n));
    let [interval, timeout, stop, ..] = numbers;
    let [t0, evening] = [16, 18].map(|at| u16::from_le_bytes(bytes_at(table, at)));
    let names = [numbers[8], numbers[9]].map(|length| length as usize);
    let in_range = numbers
        .iter()
        .zip(LIMITS)
        .all(|(number, limit)| *number <= limit)
        && (t0 <= 1 && evening <= EVENING_LIMIT)
        && names.iter().all(|length| *length <= NAME_LIMIT);
    let places: [usize; 9] = std::array::from_fn(|n| numbers[10 + n] as usize);
    let follow = in_range && places_follow(&numbers.map(|n| n as usize), &places);
    let part = |n: usize| places[n]..places[n + 1];
    follow.then(|| Header {
        settings: [interval, timeout, stop],
        t0: t0 == 1,
        evening,
        name: names[0],
        events: part(0),
        clauses: part(1),
        keys: part(2),
        values: part(3),
        texts: part(4),
        names: part(5),
        key_texts: part(6),
        value_texts: part(7),
    })
}

/// Whether the parts stand without gaps, each as long as its count says, up to an end within the table.
fn places_follow(numbers: &[usize; 19], places: &[usize; 9]) -> bool {
    let widths = [EVENT_ROW, CLAUSE_ROW, WORD_ROW, WORD_ROW];
    let rows = (0..4).all(|n| places[n + 1] == places[n] + widths[n] * numbers[4 + n]);
    let texts = places[5] == places[4] + numbers[8] + numbers[9];
    places[0] == HEADER && rows && texts && places.is_sorted() && places[8] <= LENGTH
}

/// Rows of N numbers.
fn rows<const N: usize>(bytes: &[u8]) -> Vec<[u16; N]> {
    let number = |row: &[u8], n: usize| u16::from_le_bytes(bytes_at(row, 2 * n));
    let read = |row: &[u8]| std::array::from_fn(|n| number(row, n));
    bytes.chunks_exact(2 * N).map(read).collect()
}

/// A text that may stand in a table.
fn clean(bytes: &[u8]) -> Option<String> {
    let text = std::str::from_utf8(bytes).ok()?;
    (!text.contains(['|', '\n'])).then(|| text.to_string())
}

/// The texts whose starts and lengths are given: each directly behind the one before, the last up to the end.
fn read_texts(bytes: &[u8], places: &[[u16; 2]]) -> Option<Vec<String>> {
    let mut texts = Vec::new();
    let mut end = 0;
    for [start, length] in places.iter().map(|place| place.map(usize::from)) {
        let text = bytes.get(start..start + length)?;
        texts.push(clean(text).filter(|_| start == end)?);
        end += length;
    }
    (end == bytes.len()).then_some(texts)
}

/// Keys or values: distinct words, whose ranks and order are those of their bytes.
fn read_words(table: &[u8], part: &Range<usize>, texts: &Range<usize>) -> Option<Vec<String>> {
    let rows = rows::<4>(&table[part.clone()]);
    let places: Vec<[u16; 2]> = rows.iter().map(|row| [row[0], row[1]]).collect();
    let words = read_texts(&table[texts.clone()], &places)?;
    let order = sorted(&words);
    let distinct = order
        .windows(2)
        .all(|pair| words[pair[0]] != words[pair[1]]);
    let placed = |(at, number): (usize, &usize)| {
        usize::from(rows[*number][2]) == at && usize::from(rows[at][3]) == *number
    };
    (distinct && order.iter().enumerate().all(placed)).then_some(words)
}

/// The clauses: numbers in range, keys and values in the order of their first use.
fn read_clauses(bytes: &[u8], keys: &[String], values: &[String]) -> Option<Vec<Clause>> {
    let rows = rows::<6>(bytes);
    let used_keys = rows.iter().map(|row| row[1]);
    let used_values = rows
        .iter()
        .flat_map(|row| &row[2..5])
        .filter(|code| **code != WILD);
    let in_order =
        counts_up(used_keys, 0, keys.len()) && counts_up(used_values.copied(), 1, values.len());
    let value = |code: u16| match code {
        WILD => Some(WILDCARD.to_string()),
        code => values.get(usize::from(code).checked_sub(1)?).cloned(),
    };
    let clause = |&[kind, key, v1, v2, v3, score]: &[u16; 6]| {
        let signal = Signal {
            key: keys.get(usize::from(key))?.clone(),
            values: [value(v1)?, value(v2)?, value(v3)?],
            score: i32::from(score),
        };
        let kind = *KINDS.get(usize::from(kind))?;
        (signal.score <= SCORE_LIMIT).then_some(Clause { kind, signal })
    };
    let clauses = rows.iter().map(clause).collect();
    if in_order { clauses } else { None }
}

/// Whether numbers appear for the first time in the order from `first` up, as many as `count`.
fn counts_up(numbers: impl Iterator<Item = u16>, first: usize, count: usize) -> bool {
    let mut next = first;
    for number in numbers.map(usize::from) {
        if number > next {
            return false;
        }
        next = next.max(number + 1);
    }
    next == first + count
}

/// The events: kinds and operates in range, names without gaps, and each clause in one event.
fn read_events(table: &[u8], header: &Header, clauses: Vec<Clause>) -> Option<Vec<Event>> {
    let rows = rows::<6>(&table[header.events.clone()]);
    let places: Vec<[u16; 2]> = rows.iter().map(|row| [row[2], row[3]]).collect();
    let names = read_texts(&table[header.names.clone()], &places)?;
    let mut used = 0;
    let mut clauses = clauses.into_iter();
    let mut events = Vec::new();
    for ([kind, operate, _, _, first, count], name) in rows.into_iter().zip(names) {
        let fine = operate <= 6 && name.len() <= NAME_LIMIT && first == used;
        let own: Vec<Clause> = clauses.by_ref().take(count.into()).collect();
        let (exit, lots) = read_kind(kind)?;
        let event = Event {
            exit,
            operate: operate as u8,
            name,
            lots,
            clauses: own,
        };
        events.push(Some(event).filter(|event| fine && event.clauses.len() == count.into())?);
        used += count;
    }
    clauses.next().is_none().then_some(events)
}
