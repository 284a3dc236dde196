//! The words that inputs are made of: few, so that equal ones meet often.

use crate::Rng;

/// The wildcard.
pub const ANY: &str = "任意";

/// The operates by their codes: both spellings.
pub const OPERATES: [[&str; 2]; 7] = [
    ["HL", "持多"],
    ["HS", "持空"],
    ["HO", "持币"],
    ["LO", "开多"],
    ["LE", "平多"],
    ["SO", "开空"],
    ["SE", "平空"],
];

const KEY_PARTS: [&str; 10] = [
    ANY,
    ANY,
    "d1",
    "u",
    "日线",
    "均线V230101",
    "",
    "😀",
    "任意x",
    "a@b",
];

const VALUES: [&str; 8] = [ANY, ANY, "up", "down", "向上", "", "😀", "任"];

const NAMES: [&str; 34] = [
    "go", "out", "", "名", "😀", "a@b", "@", "LO#1", "LO#", "SO#x", "LE#", "SE#A1B2", "开多#",
    "开空#1", "平多#", "平空#2", "LO", "lo#1", " LO#", "LO_#", "LO#a@b", "开多", "HL#1", "x -> y",
    "\r", "\0", "\u{feff}", "平空", "平多", "开空 #", "SE", "SOx#", "LE1", "xLO#",
];

/// Scores that a clause may have, and that the Rust takes.
const CLAUSE_SCORES: [&str; 9] = ["0", "100", "10", "50", "99", "+5", "007", "-0", "+0100"];

/// Scores about the Rust's limit, about 256 and about the limit.
const HIGH_SCORES: [&str; 9] = [
    "101", "+101", "255", "256", "500", "999", "1000", "+1000", "0001000",
];

/// Fourth parts of a bar's value that are hard to read as a number, or no number at all.
const ODD_SCORES: [&str; 16] = [
    "-5",
    "+5",
    "007",
    "-0",
    "2147483647",
    "2147483648",
    "-2147483648",
    "-2147483649",
    "99999999999999999999",
    "",
    "x",
    "1.0",
    " 5",
    "+",
    "--1",
    "５",
];

pub fn key_part(rng: &mut Rng) -> String {
    rng.pick(&KEY_PARTS).to_string()
}

pub fn value(rng: &mut Rng) -> String {
    rng.pick(&VALUES).to_string()
}

/// A name or symbol, now and then one of the largest length, in characters of 1 or 4 bytes.
pub fn name(rng: &mut Rng) -> String {
    match rng.below(60) {
        0 => "n".repeat(crate::NAME_LIMIT),
        1 => "😀".repeat(crate::NAME_LIMIT / 4),
        _ => rng.pick(&NAMES).to_string(),
    }
}

pub fn clause_score(rng: &mut Rng) -> String {
    match rng.below(3) {
        0 => rng.between(0, crate::RUST_SCORE_LIMIT).to_string(),
        _ => rng.pick(&CLAUSE_SCORES).to_string(),
    }
}

/// A score of a clause, mostly one that the Rust does not take.
pub fn high_score(rng: &mut Rng) -> String {
    match rng.below(3) {
        0 => rng.between(0, crate::SCORE_LIMIT).to_string(),
        _ => rng.pick(&HIGH_SCORES).to_string(),
    }
}

pub fn odd_score(rng: &mut Rng) -> String {
    rng.pick(&ODD_SCORES).to_string()
}
