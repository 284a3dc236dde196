//! The exchange's comma lines: of bars, at the boundaries of their fields, with faults, and of any bytes.

use super::Arguments;
use crate::model::line::days_in;
use inputs::{LAST_INSTANT, LAST_OFFSET, Rng};

/// How many bytes a very long line is made longer by.
const HUGE: usize = 100_000;

/// Bytes that mean something in a line, stand beside the digits, or are no text.
const MARKS: &[u8] = b"0123456789,,,...--++:: \r\n\t|/;xTZ\x00\x80\xff";

/// The fields of a line: id, year, month, day, hour, minute, second, sign, hours and minutes of the offset, price.
type Fields = [String; 11];

/// What stands behind each field.
const BEHIND: [&str; 11] = [",", "-", "-", " ", ":", ":", "", "", ":", ",", ""];

/// Values of each field at the limits of its form and of its range, and behind them.
const VALUES: [&[&str]; 11] = [
    &[
        "0",
        "2147483647",
        "2147483648",
        "4294967296",
        "9999999999",
        "0000000001",
        "00000000001",
        "10000000000",
        "",
        "-1",
        "+1",
    ],
    &[
        "1969", "1970", "1972", "1999", "2000", "2023", "2024", "2096", "2099", "2100", "0000",
        "9999", "970", "02024",
    ],
    &[
        "00", "01", "02", "03", "04", "11", "12", "13", "99", "2", "002",
    ],
    &["00", "01", "28", "29", "30", "31", "32", "99", "1", "031"],
    &["00", "23", "24", "99", "9", "009"],
    &["00", "59", "60", "99", "5", "005"],
    &["00", "59", "60", "61", "99", "5", "005"],
    &["+", "-", " ", "", "Z", "+-"],
    &["00", "23", "24", "99", "8", "008"],
    &["00", "01", "59", "60", "99", "5", "005"],
    &[
        "0",
        "0.000000",
        "000000000000001",
        "999999999999999",
        "999999999.999999",
        "4.903",
        "5.581",
        "1.2815",
        "62.3",
        "9007199254740.993",
        "1234567890123456",
        "0000000000000000",
        "1234567890.123456",
        "1.0000000",
        "0.1234567",
        "12.",
        ".5",
        ".",
        "",
        "1.2.3",
        "+1",
        "-1",
        "1e3",
        "1,5",
        " 1",
    ],
];

/// The line of the arguments' bar, as nearly as a line says it: its second, its offset in whole minutes, its price with
/// at most 15 digits.
pub fn of_bar(rng: &mut Rng, arguments: &Arguments) -> Vec<u8> {
    joined(&fields(rng, arguments))
}

/// A line that may be that of the arguments' bar, at a boundary, faulty or no line at all.
pub fn any(rng: &mut Rng, arguments: &Arguments) -> Vec<u8> {
    match rng.below(10) {
        0 | 1 => of_bar(rng, arguments),
        2..5 => at_boundary(rng, arguments),
        5..9 => {
            let line = of_bar(rng, arguments);
            (0..1 + rng.below(2)).fold(line, |line, _| fault(rng, &line))
        }
        _ => noise(rng),
    }
}

fn fields(rng: &mut Rng, arguments: &Arguments) -> Fields {
    let minutes = arguments.offset.clamp(-LAST_OFFSET, LAST_OFFSET) / 60;
    let seconds = arguments.instant.clamp(0, LAST_INSTANT) / 1_000_000 + minutes * 60;
    let [year, month, day] = date(seconds.div_euclid(86_400));
    let time = seconds.rem_euclid(86_400);
    let two = |number: i64| format!("{number:02}");
    [
        arguments.id.to_string(),
        year.to_string(),
        two(month),
        two(day),
        two(time / 3_600),
        two(time / 60 % 60),
        two(time % 60),
        sign(rng, minutes),
        two(minutes.abs() / 60),
        two(minutes.abs() % 60),
        price(rng, f64::from_bits(arguments.price)),
    ]
}

/// The year, month and day of a day's number, from 1969 on.
fn date(day: i64) -> [i64; 3] {
    let (mut year, mut month, mut left) = (1969, 1, day + 365);
    while left >= days_in(year, month) {
        left -= days_in(year, month);
        (year, month) = if month == 12 {
            (year + 1, 1)
        } else {
            (year, month + 1)
        };
    }
    [year, month, left + 1]
}

/// The sign of an offset; either, where it is 0.
fn sign(rng: &mut Rng, minutes: i64) -> String {
    let minus = minutes < 0 || minutes == 0 && rng.once_in(2);
    if minus { "-" } else { "+" }.to_string()
}

/// A price below a billion, with at most six digits behind the point.
fn price(rng: &mut Rng, price: f64) -> String {
    let decimals = rng.below(7);
    format!("{:.decimals$}", price.abs() % 1e9)
}

fn joined(fields: &Fields) -> Vec<u8> {
    let parts = fields.iter().zip(BEHIND);
    let parts: Vec<String> = parts
        .map(|(field, behind)| format!("{field}{behind}"))
        .collect();
    parts.concat().into_bytes()
}

/// A line with one to three fields at a boundary; now and then of the first or the last day, where an offset leads out.
fn at_boundary(rng: &mut Rng, arguments: &Arguments) -> Vec<u8> {
    let mut fields = fields(rng, arguments);
    if rng.once_in(6) {
        let day = *rng.pick(&[["1970", "01", "01"], ["2099", "12", "31"]]);
        fields[1..4].clone_from_slice(&day.map(str::to_string));
    }
    for _ in 0..1 + rng.below(3) {
        let number = rng.below(fields.len());
        fields[number] = rng.pick(VALUES[number]).to_string();
    }
    joined(&fields)
}

/// A copy of a line with a fault in a byte, its fields, its digits or its length.
fn fault(rng: &mut Rng, line: &[u8]) -> Vec<u8> {
    let mut copy = line.to_vec();
    let place = rng.below(line.len().max(1));
    match rng.below(9) {
        0 if place < copy.len() => copy[place] = rng.bits() as u8,
        1 if place < copy.len() => copy[place] = *rng.pick(MARKS),
        2 if place < copy.len() => drop(copy.remove(place)),
        3 => copy.insert(place, *rng.pick(MARKS)),
        4 => copy.truncate(place),
        5 => copy.push(*rng.pick(MARKS)),
        6 => return exchanged(rng, line),
        7 => return inputs::damage(rng, line),
        _ => more_digits(rng, &mut copy, place),
    }
    copy
}

/// A line with two of its fields between commas exchanged, or one of them doubled or missing.
fn exchanged(rng: &mut Rng, line: &[u8]) -> Vec<u8> {
    let mut fields: Vec<&[u8]> = line.split(|byte| *byte == b',').collect();
    let (from, to) = (rng.below(fields.len()), rng.below(fields.len()));
    match rng.below(3) {
        0 => fields.swap(from, to),
        1 => fields.insert(to, fields[from]),
        _ => drop(fields.remove(from)),
    }
    fields.join(&b',')
}

/// Some digits more, now and then very many, at the start, at the end or at a place.
fn more_digits(rng: &mut Rng, line: &mut Vec<u8>, place: usize) {
    let count = match rng.below(40) {
        0 => HUGE,
        _ => *rng.pick(&[1, 2, 5, 6, 9, 10, 14, 15, 16, 20, 300]),
    };
    let place = *rng.pick(&[0, line.len(), line.len(), place]);
    let digit = b'0' + rng.below(10) as u8;
    line.splice(place..place, vec![digit; count]);
}

/// Any bytes, or any that mean something; none, few, or very many now and then.
fn noise(rng: &mut Rng) -> Vec<u8> {
    let length = match rng.below(60) {
        0 => HUGE,
        _ => rng.below(60),
    };
    let marks = rng.once_in(2);
    let mut byte = || {
        if marks {
            *rng.pick(MARKS)
        } else {
            rng.bits() as u8
        }
    };
    (0..length).map(|_| byte()).collect()
}
