//! The evening at the boundaries of document 02, W3, on both sides: the first line's seventh value with what it says, and
//! the bytes of t0 and evening in a table. `trading_days` has what a bar does by them.

use super::{Arguments, COMPILE, Comparison, EVENT_NAME, every_byte_at_every_place};
use position_book::raw::{NAME_LIMIT, TABLE_LENGTH};

/// Seventh values that are read, and of each the minutes.
const READ: [(&str, u16); 15] = [
    ("0", 0),
    ("00", 0),
    ("0000000000", 0),
    ("1", 1),
    ("0000000001", 1),
    ("60", 60),
    ("180", 180),
    ("0180", 180),
    ("0000000180", 180),
    ("255", 255),
    ("256", 256),
    ("1000", 1_000),
    ("1438", 1_438),
    ("1439", 1_439),
    ("0000001439", 1_439),
];

/// Seventh values that give 3.
const NO_EVENING: [&str; 42] = [
    "",
    " ",
    "1440",
    "1441",
    "0000001440",
    "2879",
    "2880",
    "9999",
    "32768",
    "65535",
    "65536",
    "65716",
    "66975",
    "4294967295",
    "4294967296",
    "4294967476",
    "9999999999",
    "00000000000",
    "00000001439",
    "+1",
    "+180",
    "-1",
    "-0",
    "+",
    "-",
    " 1",
    "1 ",
    "1 8",
    "1.5",
    "180.0",
    "180.",
    ".5",
    "1,439",
    "21:00",
    "1e2",
    "0xb4",
    "b4",
    "1_0",
    "x",
    "１８０",
    "180\r",
    "\r",
];

/// Numbers of t0 and evening at their limits in a table, and whether it is one.
const HALVES: [([u16; 2], bool); 20] = [
    ([0, 0], true),
    ([1, 0], true),
    ([0, 1], true),
    ([1, 180], true),
    ([0, 255], true),
    ([0, 256], true),
    ([0, 1_439], true),
    ([1, 1_439], true),
    ([2, 0], false),
    ([2, 1_439], false),
    ([255, 180], false),
    ([256, 0], false),
    ([32_768, 0], false),
    ([65_535, 0], false),
    ([0, 1_440], false),
    ([1, 1_440], false),
    ([0, 2_048], false),
    ([0, 32_768], false),
    ([0, 65_535], false),
    ([65_535, 65_535], false),
];

/// A first line without an evening, and an event.
const FIRST: &[u8] = b"P|n|s|0|9|100|0";
const EVENT: &[u8] = b"\nO|LO|lo\nA|k_k_k_up_v_v_0\n";

/// What compiling a first line gives on both sides: the number, and the arguments at exit.
fn compiled(comparison: &mut Comparison, first: &[u8]) -> (u64, Arguments) {
    comparison.compile(&[first, EVENT].concat())
}

/// The same of a seventh value.
fn with_field(comparison: &mut Comparison, field: &[u8]) -> (u64, Arguments) {
    compiled(comparison, &[FIRST, b"|", field].concat())
}

/// The numbers of 16 bits at 16 and at 18 of a table: t0 and the evening.
fn halves(table: &[u8]) -> [u16; 2] {
    [16, 18].map(|at| u16::from_le_bytes([table[at], table[at + 1]]))
}

fn set_halves(table: &mut [u8], halves: [u16; 2]) {
    for (at, number) in [16, 18].into_iter().zip(halves) {
        table[at..at + 2].copy_from_slice(&number.to_le_bytes());
    }
}

#[test]
fn evening_fields_are_read_as_they_say() {
    let mut comparison = Comparison::default();
    let without = compiled(&mut comparison, FIRST);
    assert_eq!((without.0, halves(&without.1.table)), (0, [0, 0]));
    for (field, minutes) in READ {
        let (number, after) = with_field(&mut comparison, field.as_bytes());
        assert_eq!((number, halves(&after.table)), (0, [0, minutes]), "{field}");
        let mut expected = without.1.table.clone();
        set_halves(&mut expected, [0, minutes]);
        assert!(after.table == expected, "{field}: other bytes differ");
    }
}

#[test]
fn other_evening_fields_are_refused() {
    let mut comparison = Comparison::default();
    for field in NO_EVENING {
        let (number, _) = with_field(&mut comparison, field.as_bytes());
        assert_eq!(number, 3, "{field:?}");
    }
}

#[test]
fn every_number_of_minutes_is_read_or_refused() {
    let mut comparison = Comparison::default();
    for minutes in 0..=3_000 {
        for field in [format!("{minutes}"), format!("{minutes:010}")] {
            let (number, after) = with_field(&mut comparison, field.as_bytes());
            let expected = if minutes <= 1_439 { 0 } else { 3 };
            assert_eq!(number, expected, "{field}");
            assert!(number == 3 || halves(&after.table) == [0, minutes]);
        }
    }
}

#[test]
fn every_byte_at_every_place_of_an_evening_is_the_models() {
    let mut comparison = Comparison::default();
    every_byte_at_every_place(&[&b"180"[..], b"1439", b"0000001439"], |field| {
        with_field(&mut comparison, field);
    });
}

/// The first line has six values or seven; the count comes before each of them, and so does a missing LF.
#[test]
fn other_counts_of_values_are_refused_first() {
    let mut comparison = Comparison::default();
    for count in 0..=12 {
        let mut fields = vec!["P", "n", "s", "0", "0", "0", "0", "180"];
        fields.resize(count, "x");
        let first = fields.join("|");
        let (number, _) = compiled(&mut comparison, first.as_bytes());
        let expected = if [7, 8].contains(&count) { 0 } else { 2 };
        assert_eq!(number, expected, "{first}");
    }
    for evening in ["", "|", "|180", "|1440", "|x", "|180|", "|180|0"] {
        let first = [FIRST, evening.as_bytes()].concat();
        let arguments = Arguments::compiling(&first, vec![7; TABLE_LENGTH]);
        assert_eq!(comparison.run(&COMPILE, &arguments).0, 2, "{evening}");
    }
}

/// The numbers of a sheet's faults in the order in which they are looked for: tag, count, name, stop, t0, evening; then
/// a later line's LF and its operate.
const ORDER: [u64; 8] = [2, 2, 7, 3, 3, 3, 2, 4];

/// A sheet with some of those faults.
fn faulty(has: impl Fn(usize) -> bool) -> String {
    let or = |fault, wrong: &str, right: &str| if has(fault) { wrong } else { right }.to_string();
    let long = "n".repeat(NAME_LIMIT + 1);
    let [tag, eighth, name] = [or(0, "p", "P"), or(1, "|0", ""), or(2, &long, "n")];
    let [stop, t0, evening] = [or(3, "1.", "1.5"), or(4, "2", "1"), or(5, "1440", "1439")];
    let [end, operate] = [or(6, "", "\n"), or(7, "zz", "LO")];
    format!("{tag}|{name}|s|0|0|{stop}|{t0}|{evening}{eighth}\nO|{operate}|x{end}")
}

#[test]
fn of_all_faults_the_first_is_told() {
    let mut comparison = Comparison::default();
    for set in 0u32..1 << ORDER.len() {
        let has = |fault: usize| set >> fault & 1 == 1;
        let sheet = faulty(has);
        let expected = (0..ORDER.len()).find(|fault| has(*fault));
        let arguments = Arguments::compiling(sheet.as_bytes(), vec![7; TABLE_LENGTH]);
        let (number, after) = comparison.run(&COMPILE, &arguments);
        assert_eq!(number, expected.map_or(0, |fault| ORDER[fault]), "{sheet}");
        assert!(number == 0 || after == arguments, "{sheet}");
    }
}

#[test]
fn all_calls_take_or_refuse_a_table_by_its_halves() {
    let mut comparison = Comparison::default();
    let (_, table) = compiled(&mut comparison, FIRST);
    let book = comparison.two_bars(table, "k_k_k|up_v_v_0\n");
    for (halves, is_table) in HALVES {
        let mut arguments = book.clone();
        set_halves(&mut arguments.table, halves);
        comparison.all_judge(&arguments, is_table, &format!("{halves:?}"));
    }
}

#[test]
fn every_half_of_a_table_is_judged_alone() {
    let mut comparison = Comparison::default();
    let (_, mut arguments) = compiled(&mut comparison, FIRST);
    arguments.buffer = vec![7; NAME_LIMIT];
    let numbers = (0..2_100).chain((2_100..=65_535).step_by(85));
    for number in numbers {
        for (halves, is_table) in [
            ([number, 0], number <= 1),
            ([number, 1_439], number <= 1),
            ([0, number], number <= 1_439),
            ([1, number], number <= 1_439),
        ] {
            set_halves(&mut arguments.table, halves);
            let (answer, _) = comparison.run(&EVENT_NAME, &arguments);
            assert_eq!(answer, if is_table { 0 } else { 9 }, "{halves:?}");
        }
    }
}
