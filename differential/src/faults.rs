//! Inputs of the run program with one fault, so that document 01, or for lots document 02, fixes the number that they are refused with.

use inputs::{
    Bar, EVENT_LIMIT, LAST_ID, LAST_INSTANT, LAST_OFFSET, LINE_LIMIT, NAME_LIMIT, Rng, Season,
};

/// Sequences of bytes that are no UTF-8: a byte that begins nothing, one too long, a surrogate, past the last character, cut off, alone.
const NOT_UTF8: [&[u8]; 6] = [
    b"\xff",
    b"\xc0\x80",
    b"\xed\xa0\x80",
    b"\xf4\x90\x80\x80",
    b"\xe4\xbb",
    b"\x80",
];

/// Bits of infinities and of NaNs.
const NOT_FINITE: [u64; 5] = [
    0x7ff0_0000_0000_0000,
    0xfff0_0000_0000_0000,
    0x7ff8_0000_0000_0000,
    0xffff_ffff_ffff_ffff,
    0x7ff0_0000_0000_0001,
];

const NO_OPERATES: [&str; 7] = ["lo", "LOO", "", "开", "开多 ", "L", "HOLD"];
const NOT_SEVEN_PARTS: [&str; 6] = ["", "a_b_c_d_e_5", "a_b_c_d_e_f_g_5", "_", "任意", "_______"];
const NO_SCORES: [&str; 9] = ["1001", "-1", "", "x", "+", "2147483648", "1.0", " 1", "５"];

/// Lines at a sheet's end with a wrong tag, at a wrong place or with a wrong number of fields.
const WRONG_IN_SHEET: [&str; 11] = [
    "Q|x\n",
    "\n",
    "x|LE|n\n",
    "XX|LE|n\n",
    "P|n|s|0|0|0|0\n",
    "X|LE\n",
    "X|LE|n|\n",
    "X|LE|n|1\n",
    "X|LE|n\nA\n",
    "X|LE|n\nO|LO|n\n",
    "X|LE|n\nO|LO|n|5\n",
];

/// The same at the input's end; the first is not ended.
const WRONG_IN_BARS: [&str; 9] = [
    "B|1|1|1|3ff0000000000000",
    "Q\n",
    "\n",
    "-\n",
    "b|1|1|1|3ff0000000000000\n",
    "B|1|1|1\n",
    "B|1|1|1|3ff0000000000000|\n",
    "B|1|1|1|3ff0000000000000\nS|k\n",
    "B|1|1|1|3ff0000000000000\nS|k|v|\n",
];

/// What each setting may not have, the first number among it, and texts that are no number in any of them.
const PAST_THE_SETTINGS: [&[&str]; 5] = [
    &["4102444801", "1.5"],
    &["2147483648", "1.5"],
    &["1000001", "1000000.01", "42949672.96"],
    &["2", "1.0"],
    &["1440", "65536", "180.0", "21:00"],
];
const NO_NUMBERS: [&str; 13] = [
    "",
    "12.",
    ".5",
    "12.500",
    "12,5",
    "1.2.3",
    "-1",
    "+1",
    "1 ",
    "x",
    "0x1",
    "00000000001",
    "99999999999",
];

/// Lots outside 1 to 1,000, and texts that are no unsigned field.
const PAST_THE_LOTS: [&str; 7] = [
    "0",
    "1001",
    "0000000000",
    "0000001001",
    "65537",
    "4294967297",
    "9999999999",
];
const NO_LOTS: [&str; 9] = ["", "+1", "-1", "1.5", " 5", "5 ", "x", "五", "00000000005"];

/// Malformed ids, instants, offsets and prices.
const MALFORMED: [&[&str]; 4] = [
    &["", "-1", "+1", "12345678901", "1x"],
    &["", "-1", "12345678901234567", " 1"],
    &["", "-", "--1", "+1", "12345678901", "-12345678901"],
    &[
        "",
        "3ff000000000000",
        "3ff00000000000000",
        "3FF0000000000000",
        "3ff000000000000g",
    ],
];

/// Signals with a key that stands twice.
const KEY_TWICE: [&str; 3] = [
    "S||\nS||\n",
    "S|k|up_a_b_1\nS|l|\nS|k|\n",
    "S|日|1\nS|日|1\n",
];

/// A bar's lines that are refused with 1, 7, 11 or 12.
pub fn bar(rng: &mut Rng, number: u32) -> Vec<u8> {
    let bar = bar_line(1, 1, 1, 0);
    match number {
        1 => return not_utf8_signal(rng),
        7 => bar + &too_many_signals(),
        11 => out_of_range(rng),
        _ => bar + *rng.pick(&KEY_TWICE),
    }
    .into_bytes()
}

fn too_many_signals() -> String {
    (0..=LINE_LIMIT)
        .map(|index| format!("S|{index}|\n"))
        .collect()
}

fn bar_line(id: i64, instant: i64, offset: i64, bits: u64) -> String {
    format!("B|{id}|{instant}|{offset}|{bits:016x}\n")
}

/// A bar with one number just or far outside its range, or a price that is not finite.
fn out_of_range(rng: &mut Rng) -> String {
    match rng.below(4) {
        0 => bar_line(*rng.pick(&[LAST_ID + 1, 9_999_999_999]), 1, 1, 0),
        1 => bar_line(
            1,
            *rng.pick(&[LAST_INSTANT + 1, 9_999_999_999_999_999]),
            1,
            0,
        ),
        2 => bar_line(
            1,
            1,
            *rng.pick(&[
                LAST_OFFSET + 1,
                -LAST_OFFSET - 1,
                9_999_999_999,
                -9_999_999_999,
            ]),
            0,
        ),
        _ => bar_line(1, 1, 1, *rng.pick(&NOT_FINITE)),
    }
}

/// A bar with a signal that is no UTF-8, in its key or in its value.
fn not_utf8_signal(rng: &mut Rng) -> Vec<u8> {
    let [before, after] = *rng.pick(&[["S|k", "|v\n"], ["S|key|up_", "\n"]]);
    let start = bar_line(1, 1, 1, 0) + before;
    [start.as_bytes(), *rng.pick(&NOT_UTF8), after.as_bytes()].concat()
}

/// A season's input that is refused with a number from 1 to 7, or with 18, for one fault in its sheet or its lines.
pub fn input(rng: &mut Rng, season: &Season, number: u32) -> Vec<u8> {
    match number {
        1 => return not_utf8_sheet(rng, season),
        2 => wrong_line(rng, season),
        3 if rng.once_in(2) => wrong_setting(rng, season),
        3 if rng.once_in(3) => with_lots(rng, season, &NO_LOTS),
        3 => wrong_bar_field(rng, season),
        18 => with_lots(rng, season, &PAST_THE_LOTS),
        4 => with_exit(season, &format!("X|{}|n\n", rng.pick(&NO_OPERATES))),
        5 => with_exit(
            season,
            &format!("X|SE|n\nY|{}\n", rng.pick(&NOT_SEVEN_PARTS)),
        ),
        6 => with_exit(
            season,
            &format!("X|平多|n\nN|a_b_c_d_e_f_{}\n", rng.pick(&NO_SCORES)),
        ),
        _ => past_a_limit(rng, season),
    }
    .into_bytes()
}

/// The season's input with lines more at its sheet's end.
fn with_exit(season: &Season, lines: &str) -> String {
    format!("{}{lines}-\n{}", season.sheet.text(), bars(season))
}

/// The season's input with an opening before its events, whose lots are one of these fields.
fn with_lots(rng: &mut Rng, season: &Season, fields: &[&str]) -> String {
    let text = season.text();
    let (first, rest) = text.split_once('\n').expect("a sheet has a first line");
    let operate = *rng.pick(&["LO", "开空", "LE", "HO"]);
    format!("{first}\nO|{operate}|n|{}\n{rest}", rng.pick(fields))
}

fn bars(season: &Season) -> String {
    season.bars().map(Bar::lines).collect()
}

/// Bytes that are no UTF-8, in the position's name or in the name of an exit more.
fn not_utf8_sheet(rng: &mut Rng, season: &Season) -> Vec<u8> {
    let text = with_exit(season, "X|LE|n\n").into_bytes();
    let place = *rng.pick(&[2, season.sheet.text().len() + 5]);
    [&text[..place], *rng.pick(&NOT_UTF8), &text[place..]].concat()
}

/// A line that is missing, has a wrong tag, stands at a wrong place, has too few or too many fields, or is not ended.
fn wrong_line(rng: &mut Rng, season: &Season) -> String {
    let sheet = season.sheet.text();
    let (first, events) = sheet.split_once('\n').expect("a sheet has a first line");
    let bars = bars(season);
    let wrong = *rng.pick(&WRONG_IN_SHEET);
    match rng.below(8) {
        0 => format!("{sheet}{bars}"),
        1 => format!("{sheet}-"),
        2 => format!("{events}-\n{bars}"),
        3 => format!("{first}\nA|a_b_c_d_e_f_1\n{events}-\n{bars}"),
        4 => format!("{sheet}-\nS|k|v\n{bars}"),
        5 => with_exit(season, wrong),
        6 => with_fields(season, |fields| {
            fields.resize(*rng.pick(&[2, 6, 9, 10]), "0".into())
        }),
        _ => season.text() + *rng.pick(&WRONG_IN_BARS),
    }
}

/// The season's input with the fields of its first line changed.
fn with_fields(season: &Season, change: impl FnOnce(&mut Vec<String>)) -> String {
    let text = season.text();
    let (first, rest) = text.split_once('\n').expect("a sheet has a first line");
    let mut fields: Vec<String> = first.split('|').map(str::to_string).collect();
    change(&mut fields);
    format!("{}\n{rest}", fields.join("|"))
}

/// The season's input with another text in a field of its first line, or in one more behind its last.
fn with_field(season: &Season, place: usize, field: &str) -> String {
    with_fields(season, |fields| {
        fields.resize(fields.len().max(place + 1), "0".into());
        fields[place] = field.into();
    })
}

/// A setting that is malformed or just outside its range.
fn wrong_setting(rng: &mut Rng, season: &Season) -> String {
    let setting = rng.below(5);
    let wrong = if rng.once_in(2) {
        *rng.pick(PAST_THE_SETTINGS[setting])
    } else {
        *rng.pick(&NO_NUMBERS)
    };
    with_field(season, 3 + setting, wrong)
}

/// A bar more, with a malformed field.
fn wrong_bar_field(rng: &mut Rng, season: &Season) -> String {
    let mut fields = ["1", "1", "1", "3ff0000000000000"];
    let place = rng.below(4);
    fields[place] = *rng.pick(MALFORMED[place]);
    format!("{}B|{}\n", season.text(), fields.join("|"))
}

/// A sheet with a name or symbol too long, an event too many or a clause too many.
fn past_a_limit(rng: &mut Rng, season: &Season) -> String {
    let long = "é".repeat(NAME_LIMIT / 2) + "n";
    let events = EVENT_LIMIT + 1 - season.sheet.events.len();
    let clauses = LINE_LIMIT + 1 - season.sheet.clauses().count();
    let lines = match rng.below(5) {
        name_or_symbol @ (0 | 1) => return with_field(season, 1 + name_or_symbol, &long),
        2 => format!("X|LE|{long}\n"),
        3 => "X|LE|n\n".repeat(events),
        _ => format!("X|LE|n\n{}", "A|______0\n".repeat(clauses)),
    };
    with_exit(season, &lines)
}
