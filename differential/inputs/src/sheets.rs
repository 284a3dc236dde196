//! Valid sheets.

use crate::season::{Clause, Event, Kind, Sheet};
use crate::{EVENT_LIMIT, LAST_EVENING, LINE_LIMIT, LOTS_LIMIT, Rng, TEXT_LIMIT, words};

/// Stops whose hundredths over 1,000,000, rounded once, are another double than over 100 and then over 10,000.
const TWICE_ROUNDED: [i64; 5] = [1_915, 2_498, 3_830, 4_996, 87_955];

/// A sheet whose first line has that seventh value, or none: mostly a few events over a few keys, now and then one of the
/// largest size.
pub fn sheet(rng: &mut Rng, evening: Option<i64>) -> Sheet {
    let mut sheet = settings(rng, evening);
    let large = rng.once_in(150);
    let keys = key_pool(rng, if large { 60 } else { 4 });
    let openings = if large { 20 } else { rng.below(5) };
    let events = if large {
        EVENT_LIMIT
    } else {
        openings + rng.below(5)
    };
    for index in 0..events {
        sheet.events.push(event(rng, &keys, index >= openings));
    }
    if large {
        grow(rng, &mut sheet, &keys);
    }
    sheet
}

fn settings(rng: &mut Rng, evening: Option<i64>) -> Sheet {
    Sheet {
        name: words::name(rng),
        symbol: words::name(rng),
        interval: interval(rng),
        timeout: timeout(rng),
        stop: stop(rng),
        t0: rng.once_in(2),
        evening,
        padded: rng.once_in(10),
        decimals: if rng.once_in(3) { 1 + rng.below(2) } else { 0 },
        events: Vec::new(),
    }
}

fn interval(rng: &mut Rng) -> i64 {
    match rng.below(8) {
        0 => rng.between(0, 200_000),
        1 => 4_102_444_800,
        _ => *rng.pick(&[0, 0, 1, 10, 60, 86_400]),
    }
}

fn timeout(rng: &mut Rng) -> i64 {
    match rng.below(8) {
        0 => rng.between(0, 100),
        1 => *rng.pick(&[2_147_483_647, 2_147_483_646]),
        _ => *rng.pick(&[0, 1, 2, 3, 5]),
    }
}

/// In hundredths of a basis point; more than half are whole.
fn stop(rng: &mut Rng) -> i64 {
    match rng.below(12) {
        0 => 100 * rng.between(0, 1_000_000),
        1 => 100 * *rng.pick(&[1_000_000, 9_999, 10_000, 10_001, 20_000]),
        2 => rng.between(0, 100_000_000),
        3 => rng.between(0, 100_000),
        4 => *rng.pick(&[1, 5, 10, 99, 101, 999_999, 1_000_001, 99_999_999]),
        5 => *rng.pick(&[50, 725, 1_250, 15_625, 31_250]),
        6 => *rng.pick(&TWICE_ROUNDED),
        _ => 100 * *rng.pick(&[0, 1, 100, 250, 300, 500, 1_000]),
    }
}

/// A first line's seventh value, or none, where the trading day may open at any minute; half open at 21:00.
pub fn evening(rng: &mut Rng) -> Option<i64> {
    match rng.below(8) {
        0 => None,
        1 => Some(0),
        2 => Some(rng.between(0, LAST_EVENING)),
        3 => Some(*rng.pick(&[1, 60, 720, LAST_EVENING - 1, LAST_EVENING])),
        _ => Some(180),
    }
}

/// Gives some clauses of a sheet another score, up to 1,000, as long as its text has room for it.
pub fn raise_scores(rng: &mut Rng, sheet: &mut Sheet) {
    let mut room = TEXT_LIMIT - sheet.text().len();
    for clause in sheet.events.iter_mut().flat_map(|event| &mut event.clauses) {
        let score = words::high_score(rng);
        let more = score.len().saturating_sub(clause.parts[6].len());
        if rng.once_in(2) && more <= room {
            clause.parts[6] = score;
            room -= more;
        }
    }
}

/// Says lots in some openings of a sheet, as long as its text has room for them.
pub fn add_lots(rng: &mut Rng, sheet: &mut Sheet) {
    for index in 0..sheet.events.len() {
        let lots = match rng.below(4) {
            0 => None,
            1 => Some(rng.between(1, LOTS_LIMIT)),
            _ => Some(*rng.pick(&[1, 2, 3, 5, 255, 256, LOTS_LIMIT - 1, LOTS_LIMIT])),
        };
        if !sheet.events[index].exit {
            sheet.events[index].lots = lots;
            if sheet.text().len() > TEXT_LIMIT {
                sheet.events[index].lots = None;
            }
        }
    }
}

/// Some keys, each of three parts.
fn key_pool(rng: &mut Rng, most: usize) -> Vec<[String; 3]> {
    let count = 1 + rng.below(most);
    (0..count)
        .map(|_| std::array::from_fn(|_| words::key_part(rng)))
        .collect()
}

fn event(rng: &mut Rng, keys: &[[String; 3]], exit: bool) -> Event {
    let clauses = if rng.once_in(30) { 0 } else { 1 + rng.below(3) };
    Event {
        exit,
        operate: operate(rng, exit),
        name: words::name(rng),
        lots: None,
        clauses: (0..clauses).map(|_| clause(rng, keys)).collect(),
    }
}

/// An operate in one of its spellings: mostly one that opens in an opening and one that closes in an exit, sometimes any.
fn operate(rng: &mut Rng, exit: bool) -> String {
    let code = match (rng.below(4), exit) {
        (0, _) => rng.below(7),
        (_, false) => *rng.pick(&[3, 5]),
        (_, true) => *rng.pick(&[4, 6]),
    };
    rng.pick(&words::OPERATES[code]).to_string()
}

fn clause(rng: &mut Rng, keys: &[[String; 3]]) -> Clause {
    let [k1, k2, k3] = rng.pick(keys).clone();
    let [v1, v2, v3] = std::array::from_fn(|_| words::value(rng));
    Clause {
        kind: *rng.pick(&[Kind::All, Kind::All, Kind::Any, Kind::Any, Kind::Not]),
        parts: [k1, k2, k3, v1, v2, v3, words::clause_score(rng)],
    }
}

/// Adds clauses up to the limit, or up to the text's, and then often fills the text to its last byte.
fn grow(rng: &mut Rng, sheet: &mut Sheet, keys: &[[String; 3]]) {
    let mut clauses = sheet.clauses().count();
    let mut length = sheet.text().len();
    while clauses < LINE_LIMIT {
        let clause = clause(rng, keys);
        let line = clause.signal().len() + 3;
        if length + line > TEXT_LIMIT {
            break;
        }
        any_event(rng, sheet).clauses.push(clause);
        clauses += 1;
        length += line;
    }
    if rng.once_in(2) {
        fill(sheet, length);
    }
}

fn any_event<'a>(rng: &mut Rng, sheet: &'a mut Sheet) -> &'a mut Event {
    let index = rng.below(sheet.events.len());
    &mut sheet.events[index]
}

/// Makes a key's part so long that the sheet's text, of `length` bytes now, has as many bytes as a text may have.
fn fill(sheet: &mut Sheet, length: usize) {
    let missing = TEXT_LIMIT.saturating_sub(length);
    let clause = sheet
        .events
        .iter_mut()
        .find_map(|event| event.clauses.first_mut());
    if let Some(clause) = clause {
        clause.parts[1].push_str(&"x".repeat(missing));
    }
}
