//! Tables with faults, aimed at each condition under which bytes are a table.

use crate::model::table::{encode, read_table};
use crate::model::texts::{Clause, Event, Kind, Sheet, Signal, WILDCARD};
use inputs::{EVENT_LIMIT, LINE_LIMIT, NAME_LIMIT, Rng};
use position_book::raw::TABLE_LENGTH;

/// Where the header says that its parts start and the last ends.
const PLACES: usize = 44;
const HEADER_NUMBERS: usize = 20;
const LAYOUT: u32 = 0xff00_0002;

/// A copy of a table, changed in one respect. It may still be a table.
pub fn fault(rng: &mut Rng, table: &[u8]) -> Vec<u8> {
    let mut copy = table.to_vec();
    match rng.below(18) {
        0 | 1 => header_fault(rng, &mut copy),
        2 | 3 => row_fault(rng, &mut copy),
        4 => exchange(rng, &mut copy),
        5 => text_fault(rng, &mut copy),
        6 => wild_word(rng, &mut copy),
        7 => repeated_word(rng, &mut copy),
        8 => gap(rng, &mut copy),
        9 => anywhere(rng, &mut copy),
        10 => layout_fault(rng, &mut copy),
        11 => former(&mut copy),
        12 => half_fault(rng, &mut copy),
        13 => kind_fault(rng, &mut copy),
        _ => meaning_fault(rng, &mut copy),
    }
    copy
}

fn place(table: &[u8], part: usize) -> usize {
    let at = PLACES + 4 * part;
    u32::from_le_bytes(table[at..at + 4].try_into().unwrap()) as usize
}

/// A number of the header moved by one, or set to a limit or beyond it.
fn header_fault(rng: &mut Rng, table: &mut [u8]) {
    let at = 4 * rng.below(HEADER_NUMBERS);
    let now = u32::from_le_bytes(table[at..at + 4].try_into().unwrap());
    let limits = [
        0,
        1,
        2,
        32,
        256,
        768,
        1_000_000,
        100_000_000,
        32_768,
        2_147_483_647,
        4_102_444_800,
        u32::MAX,
    ];
    let number = match rng.below(3) {
        0 => now.wrapping_add(1),
        1 => now.wrapping_sub(1),
        _ => rng.pick(&limits).wrapping_add(rng.below(2) as u32),
    };
    table[at..at + 4].copy_from_slice(&number.to_le_bytes());
}

/// Another layout number: a bit of it changed, its bytes turned round, a number beside it, or any.
fn layout_fault(rng: &mut Rng, table: &mut [u8]) {
    let number = match rng.below(4) {
        0 => LAYOUT ^ 1 << rng.below(32),
        1 => LAYOUT.swap_bytes(),
        2 => LAYOUT.wrapping_add(rng.below(5) as u32).wrapping_sub(2),
        _ => rng.bits() as u32,
    };
    table[..4].copy_from_slice(&number.to_le_bytes());
}

/// Another t0 or evening, the two numbers of 16 bits in the header: at a limit or beside it, or with a bit changed.
fn half_fault(rng: &mut Rng, table: &mut [u8]) {
    let at = *rng.pick(&[16, 18]);
    let now = u16::from_le_bytes([table[at], table[at + 1]]);
    let limits: [u16; 8] = [0, 1, 180, 255, 1_438, 1_439, 32_767, 65_535];
    let number = match rng.below(3) {
        0 => now ^ 1 << rng.below(16),
        _ => rng.pick(&limits).wrapping_add(rng.below(2) as u16),
    };
    table[at..at + 2].copy_from_slice(&number.to_le_bytes());
}

/// Another kind of an event: an exit, or an opening, with lots at a limit or beside it, or with a bit changed.
fn kind_fault(rng: &mut Rng, table: &mut [u8]) {
    let start = place(table, 0);
    let events = (place(table, 1) - start) / 12;
    if events == 0 {
        return;
    }
    let at = start + 12 * rng.below(events);
    let now = u16::from_le_bytes([table[at], table[at + 1]]);
    let limits: [u16; 8] = [0, 2, 8, 254, 256, 1_996, 1_998, 65_534];
    let number = match rng.below(3) {
        0 => now ^ 1 << rng.below(16),
        _ => rng.pick(&limits).wrapping_add(rng.below(3) as u16),
    };
    table[at..at + 2].copy_from_slice(&number.to_le_bytes());
}

/// The same sheet in the former layout: no layout number, the stop in whole basis points, all four bytes earlier.
fn former(table: &mut [u8]) {
    let stop = u32::from_le_bytes(table[12..16].try_into().unwrap()) / 100;
    let places: Vec<u32> = (0..9).map(|part| place(table, part) as u32).collect();
    table.copy_within(4.., 0);
    table[8..12].copy_from_slice(&stop.to_le_bytes());
    for (part, place) in places.iter().enumerate() {
        let at = PLACES - 4 + 4 * part;
        table[at..at + 4].copy_from_slice(&place.wrapping_sub(4).to_le_bytes());
    }
}

/// A number of a row moved by one, set to a limit, or to another row's.
fn row_fault(rng: &mut Rng, table: &mut [u8]) {
    let numbers = (place(table, 4) - place(table, 0)) / 2;
    if numbers == 0 {
        return;
    }
    let at = |n: usize| place(table, 0) + 2 * n;
    let (own, other) = (at(rng.below(numbers)), at(rng.below(numbers)));
    let now = u16::from_le_bytes([table[own], table[own + 1]]);
    let number = match rng.below(4) {
        0 => now.wrapping_add(1),
        1 => now.wrapping_sub(1),
        2 => u16::from_le_bytes([table[other], table[other + 1]]),
        _ => *rng.pick(&[0, 1, 2, 3, 6, 7, 256, 257, 1_000, 1_001, 65_534, 65_535]),
    };
    table[own..own + 2].copy_from_slice(&number.to_le_bytes());
}

/// Two rows of a part exchanged, or two numbers of keys or values exchanged in all clauses.
fn exchange(rng: &mut Rng, table: &mut [u8]) {
    let part = rng.below(4);
    let width = [12, 12, 8, 8][part];
    let start = place(table, part);
    let count = (place(table, part + 1) - start) / width;
    if count == 0 {
        return;
    }
    let (one, two) = (rng.below(count), rng.below(count));
    if part >= 2 && rng.once_in(2) {
        return renumber(table, part, one as u16, two as u16);
    }
    for n in 0..width {
        table.swap(start + width * one + n, start + width * two + n);
    }
}

/// Exchanges two keys or two values in all clauses, which leaves all but the order of first use as it is.
fn renumber(table: &mut [u8], part: usize, one: u16, two: u16) {
    let (fields, first) = if part == 2 { (2..4, 0) } else { (4..10, 1) };
    let [one, two] = [one + first, two + first];
    let (start, end) = (place(table, 1), place(table, 2));
    let rows = table[start..end].chunks_exact_mut(12);
    for number in rows.flat_map(|row| row[fields.clone()].chunks_exact_mut(2)) {
        let now = u16::from_le_bytes([number[0], number[1]]);
        let then = match now {
            _ if now == one => two,
            _ if now == two => one,
            _ => now,
        };
        number.copy_from_slice(&then.to_le_bytes());
    }
}

/// A byte of the texts that ends a character early, or that no text may have.
fn text_fault(rng: &mut Rng, table: &mut [u8]) {
    let (start, end) = (place(table, 4), place(table, 8));
    if start < end {
        table[start + rng.below(end - start)] = *rng.pick(b"|\n_a\x00\x80\xbf\xc0\xe4\xf4\xff");
    }
}

/// The rows of keys or of values: where each word stands in the table, its length, its rank and the order.
fn words(table: &[u8], part: usize) -> Vec<[usize; 4]> {
    let texts = place(table, part + 4);
    let number = |row: &[u8], n: usize| u16::from_le_bytes([row[2 * n], row[2 * n + 1]]) as usize;
    let rows = table[place(table, part)..place(table, part + 1)].chunks_exact(8);
    rows.map(|row| {
        [
            texts + number(row, 0),
            number(row, 1),
            number(row, 2),
            number(row, 3),
        ]
    })
    .collect()
}

/// The wildcard in the place of a word as long.
fn wild_word(rng: &mut Rng, table: &mut [u8]) {
    let mut words = words(table, 2 + rng.below(2));
    words.retain(|word| word[1] == WILDCARD.len());
    if let Some([start, length, ..]) = words.get(rng.below(words.len() + 1)) {
        table[*start..start + length].copy_from_slice(WILDCARD.as_bytes());
    }
}

/// A word in the place of one as long that stands beside it in the order, so that all but their difference is as it should be.
fn repeated_word(rng: &mut Rng, table: &mut [u8]) {
    let words = words(table, 2 + rng.below(2));
    let order: Vec<usize> = words.iter().map(|word| word[3]).collect();
    let mut pairs: Vec<_> = order
        .windows(2)
        .map(|pair| [words[pair[0]], words[pair[1]]])
        .collect();
    pairs.retain(|[one, two]| one[1] == two[1]);
    if let Some([one, two]) = pairs.get(rng.below(pairs.len() + 1)) {
        table.copy_within(one[0]..one[0] + one[1], two[0]);
    }
}

/// A gap between the header and the parts, to which all places are moved.
fn gap(rng: &mut Rng, table: &mut [u8]) {
    let (start, end) = (place(table, 0), place(table, 8));
    let gap = 1 + rng.below(4);
    if end + gap > table.len() {
        return;
    }
    table.copy_within(start..end, start + gap);
    for part in 0..9 {
        let moved = (place(table, part) + gap) as u32;
        let at = PLACES + 4 * part;
        table[at..at + 4].copy_from_slice(&moved.to_le_bytes());
    }
}

/// Any byte, in the used ones or behind them.
fn anywhere(rng: &mut Rng, table: &mut [u8]) {
    let end = *rng.pick(&[table.len(), place(table, 8).clamp(1, table.len())]);
    let at = rng.below(end);
    table[at] = rng.bits() as u8;
}

/// The table of a sheet that breaks one condition, all else being laid out as it should be.
fn meaning_fault(rng: &mut Rng, table: &mut [u8]) {
    let Ok(mut sheet) = read_table(table) else {
        return;
    };
    match rng.below(5) {
        0 => setting_fault(rng, &mut sheet),
        1 => event_fault(rng, &mut sheet),
        2 => crowd(rng, &mut sheet),
        3 => fill(rng, &mut sheet),
        _ => signal_fault(rng, &mut sheet),
    }
    let used = encode(&sheet);
    let length = used.len().min(table.len());
    table[..length].copy_from_slice(&used[..length]);
}

/// All clauses.
fn clauses(sheet: &mut Sheet) -> impl Iterator<Item = &mut Clause> {
    sheet.events.iter_mut().flat_map(|event| &mut event.clauses)
}

/// A key so long that the table is used up to its last byte, or one byte further.
fn fill(rng: &mut Rng, sheet: &mut Sheet) {
    let missing = (TABLE_LENGTH + rng.below(2)).saturating_sub(encode(sheet).len());
    let Some(key) = sheet
        .clauses()
        .next()
        .map(|clause| clause.signal.key.clone())
    else {
        return;
    };
    for clause in clauses(sheet).filter(|clause| clause.signal.key == key) {
        clause.signal.key.push_str(&"x".repeat(missing));
    }
}

/// A name at its limit or beyond, or with a character that it may not have.
fn name(rng: &mut Rng) -> String {
    match rng.below(4) {
        0 => "n".repeat(NAME_LIMIT),
        1 => "n".repeat(NAME_LIMIT + 1),
        _ => rng.pick(&["a|b", "a\nb", "", "任意", "a_b"]).to_string(),
    }
}

fn setting_fault(rng: &mut Rng, sheet: &mut Sheet) {
    let more = rng.below(2) as u32;
    match rng.below(6) {
        0 => sheet.interval = 4_102_444_800 + more,
        1 => sheet.timeout = 2_147_483_647 + more,
        2 => sheet.stop = *rng.pick(&[1_000_000, 100_000_000]) + more,
        3 => sheet.evening = 1_439 + more as u16,
        4 => sheet.name = name(rng),
        _ => sheet.symbol = name(rng),
    }
}

/// Events in any order, with any operate, with lots that they may not have, with a name that is none.
fn event_fault(rng: &mut Rng, sheet: &mut Sheet) {
    if sheet.events.is_empty() {
        return;
    }
    let place = rng.below(sheet.events.len());
    match rng.below(5) {
        0 => sheet.events.reverse(),
        1 => sheet.events[place].exit ^= true,
        2 => sheet.events[place].operate = rng.below(9) as u8,
        3 => sheet.events[place].lots = *rng.pick(&[0, 1, 2, 5, 999, 1_000, 1_001]),
        _ => sheet.events[place].name = name(rng),
    }
}

/// As many events as there may be, or one more; and sometimes as many clauses, or one more, each with a key and values of its own.
fn crowd(rng: &mut Rng, sheet: &mut Sheet) {
    let events = EVENT_LIMIT + rng.below(2);
    sheet
        .events
        .resize_with(events.max(sheet.events.len()), || Event {
            exit: rng.once_in(2),
            operate: rng.below(7) as u8,
            name: String::new(),
            lots: *rng.pick(&[1, 1, 1, 1, 1, 1, 1, 1, 2, 1_000]),
            clauses: Vec::new(),
        });
    let clauses = rng.below(2) * (LINE_LIMIT + rng.below(2));
    for number in sheet.clauses().count()..clauses {
        let place = rng.below(sheet.events.len());
        let clause = numbered_clause(rng, number);
        sheet.events[place].clauses.push(clause);
    }
}

fn numbered_clause(rng: &mut Rng, number: usize) -> Clause {
    let signal = Signal {
        key: format!("k{number}"),
        values: [1, 2, 3].map(|v| format!("v{number}{v}")),
        score: 1_000,
    };
    let kind = *rng.pick(&[Kind::All, Kind::Any, Kind::Not]);
    Clause { kind, signal }
}

/// A clause with a key, a value or a score that it may not have.
fn signal_fault(rng: &mut Rng, sheet: &mut Sheet) {
    let mut clauses: Vec<&mut Clause> = clauses(sheet).collect();
    if clauses.is_empty() {
        return;
    }
    let place = rng.below(clauses.len());
    let signal = &mut clauses[place].signal;
    let keys = [
        "a_b_c",
        "a_b_c_d",
        "任意",
        "a_任意",
        "任意_任意x_",
        "a|b",
        "a\n",
        "",
        "__",
        "___",
    ];
    let values = ["a_b", "_", "a|b", "a\n", "", "任意x", "任意"];
    match rng.below(3) {
        0 => signal.key = rng.pick(&keys).to_string(),
        1 => signal.values[rng.below(3)] = rng.pick(&values).to_string(),
        _ => signal.score = *rng.pick(&[0, 100, 101, 256, 999, 1_000, 1_001, 1_256, 65_535]),
    }
}
