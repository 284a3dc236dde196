//! Scores at the boundaries of document 02, W8, on both sides: in a sheet, alone, in a table, and against a bar's.

use super::{Arguments, Comparison, EVENT_NAME, FEED, FRESH, SIGNAL, every_byte_at_every_place};
use inputs::LINE_LIMIT;
use position_book::raw::{NAME_LIMIT, book_length};

/// Last parts that are read, and of each the score.
const READ: [(&str, u16); 16] = [
    ("0", 0),
    ("-0", 0),
    ("+0", 0),
    ("99", 99),
    ("100", 100),
    ("101", 101),
    ("255", 255),
    ("256", 256),
    ("257", 257),
    ("999", 999),
    ("1000", 1_000),
    ("+1000", 1_000),
    ("01000", 1_000),
    ("+01000", 1_000),
    ("0000000000000000000000000000000000000000999", 999),
    ("+0000000000000000000000000000000000000001000", 1_000),
];

/// Last parts that give 6.
const NO_SCORES: [&str; 28] = [
    "1001",
    "+1001",
    "01001",
    "1024",
    "1256",
    "9999",
    "65535",
    "65536",
    "66536",
    "2147483647",
    "2147483648",
    "4294967296",
    "4294968296",
    "18446744073709552616",
    "-1",
    "-1000",
    "",
    "+",
    "-",
    "+-1000",
    " 1000",
    "1000 ",
    "1,000",
    "1000.0",
    "1e3",
    "1000‰",
    "１０００",
    "1000\r",
];

const FIRST: &str = "P|n|s|0|9|100|1\n";
/// Where the first clause's score stands in the table of a sheet with one event, or with two.
const SCORE: [usize; 2] = [102, 114];

/// What compiling a sheet of these events gives on both sides: the number, and the arguments at exit.
fn compiled(comparison: &mut Comparison, events: &[u8]) -> (u64, Arguments) {
    comparison.compile(&[FIRST.as_bytes(), events].concat())
}

/// The same of an opening with a clause of that kind and last part.
fn in_a_sheet(comparison: &mut Comparison, kind: char, part: &[u8]) -> (u64, Arguments) {
    let before = format!("O|LO|lo\n{kind}|k_l_m_u_v_w_");
    compiled(comparison, &[before.as_bytes(), part, b"\n"].concat())
}

/// The number that a signal alone with that last part gives on both sides.
fn alone(comparison: &mut Comparison, part: &[u8]) -> u64 {
    let text = [b"k_l_m_u_v_w_", part].concat();
    let arguments = Arguments {
        buffer: vec![7; text.len()],
        text,
        ..Arguments::default()
    };
    let (number, after) = comparison.run(&SIGNAL, &arguments);
    assert!(number == 0 || after == arguments, "{part:?}");
    number
}

fn score(table: &[u8], at: usize) -> u16 {
    u16::from_le_bytes([table[at], table[at + 1]])
}

fn set_score(table: &mut [u8], at: usize, score: u16) {
    table[at..at + 2].copy_from_slice(&score.to_le_bytes());
}

#[test]
fn scores_are_read_as_they_say() {
    let mut comparison = Comparison::default();
    for (kind, (part, said)) in "AYN".chars().flat_map(|kind| READ.map(|part| (kind, part))) {
        let (number, after) = in_a_sheet(&mut comparison, kind, part.as_bytes());
        assert_eq!((number, score(&after.table, SCORE[0])), (0, said), "{part}");
        assert_eq!(alone(&mut comparison, part.as_bytes()), 0, "{part}");
    }
}

#[test]
fn other_scores_are_refused() {
    let mut comparison = Comparison::default();
    for (kind, part) in "AYN"
        .chars()
        .flat_map(|kind| NO_SCORES.map(|part| (kind, part)))
    {
        let (number, _) = in_a_sheet(&mut comparison, kind, part.as_bytes());
        assert_eq!(number, 6, "{part:?}");
        assert_eq!(alone(&mut comparison, part.as_bytes()), 6, "{part:?}");
    }
}

#[test]
fn every_score_is_read_or_refused() {
    let mut comparison = Comparison::default();
    for said in 0..=3_000 {
        for part in [
            format!("{said}"),
            format!("+{said:012}"),
            format!("-{said}"),
        ] {
            let fine = said == 0 || said <= 1_000 && !part.starts_with('-');
            let expected = if fine { 0 } else { 6 };
            let (number, after) = in_a_sheet(&mut comparison, 'A', part.as_bytes());
            assert_eq!(number, expected, "{part}");
            assert!(!fine || score(&after.table, SCORE[0]) == said, "{part}");
            assert_eq!(alone(&mut comparison, part.as_bytes()), expected, "{part}");
        }
    }
}

#[test]
fn every_byte_at_every_place_of_a_score_is_the_models() {
    let mut comparison = Comparison::default();
    every_byte_at_every_place(&[&b"9"[..], b"1000", b"+0001000"], |part| {
        in_a_sheet(&mut comparison, 'A', part);
        alone(&mut comparison, part);
    });
}

/// The parts are counted before the score, and the clauses behind it.
#[test]
fn of_all_faults_the_first_is_told() {
    let mut comparison = Comparison::default();
    for (part, wrong) in [("1000", false), ("1001", true), ("x", true)] {
        for (before, many) in [(LINE_LIMIT - 1, false), (LINE_LIMIT, true)] {
            for signal in ["k_l_m_u_v_w_", "k_l_m_u_v_", "k_l_m_u_v_w_x_"] {
                let clauses = "N|k_l_m_u_v_w_1000\n".repeat(before);
                let events = format!("O|LO|o\n{clauses}A|{signal}{part}\nbad\n");
                let told = match (signal, wrong, many) {
                    ("k_l_m_u_v_w_", true, _) => 6,
                    ("k_l_m_u_v_w_", _, true) => 7,
                    ("k_l_m_u_v_w_", ..) => 2,
                    _ => 5,
                };
                let (number, _) = compiled(&mut comparison, events.as_bytes());
                assert_eq!(number, told, "{before} before {signal}{part}");
            }
        }
    }
}

/// A book of two bars by a table with an opening and an exit.
fn with_book(comparison: &mut Comparison) -> Arguments {
    let events = b"O|LO|lo\nA|k_l_m_u_v_w_1000\nX|LE|le\nA|k_l_m_x_v_w_0\n";
    let (_, table) = compiled(comparison, events);
    comparison.two_bars(table, "k_l_m|u_v_w_1000\n")
}

#[test]
fn all_calls_take_or_refuse_a_table_by_its_scores() {
    let mut comparison = Comparison::default();
    let book = with_book(&mut comparison);
    let scores = [
        0, 10, 100, 101, 255, 256, 999, 1_000, 1_001, 1_024, 1_256, 32_768, 65_535,
    ];
    for (at, score) in [SCORE[1], SCORE[1] + 12]
        .into_iter()
        .flat_map(|at| scores.map(|score| (at, score)))
    {
        let mut arguments = book.clone();
        set_score(&mut arguments.table, at, score);
        comparison.all_judge(&arguments, score <= 1_000, &format!("{score} at {at}"));
    }
}

#[test]
fn every_score_of_a_table_is_judged() {
    let mut comparison = Comparison::default();
    let mut arguments = Arguments {
        table: with_book(&mut comparison).table,
        buffer: vec![7; NAME_LIMIT],
        ..Arguments::default()
    };
    for score in (0..1_100).chain((1_100..=65_535).step_by(17)) {
        set_score(&mut arguments.table, SCORE[1], score);
        let (number, _) = comparison.run(&EVENT_NAME, &arguments);
        assert_eq!(number, if score <= 1_000 { 0 } else { 9 }, "{score}");
    }
}

/// Whether a bar with that score opens a long, by an event with one clause.
fn is_opened(comparison: &mut Comparison, table: &Arguments, score: i64) -> bool {
    let mut arguments = table.clone();
    arguments.text = format!("k_l_m|u_v_w_{score}\n").into_bytes();
    arguments.book = vec![0; book_length(1)];
    arguments = comparison.run(&FRESH, &arguments).1;
    let (number, after) = comparison.run(&FEED, &arguments);
    assert_eq!(number, 0);
    after.book[24] == 2
}

/// "A bar's score was already any i32": a clause holds from its own score on.
#[test]
fn a_clause_holds_from_its_own_score_on() {
    let mut comparison = Comparison::default();
    for (kind, own) in "AYN".chars().flat_map(|kind| {
        [0, 1, 99, 100, 101, 255, 256, 257, 998, 999, 1_000].map(|own| (kind, own))
    }) {
        let (number, table) = in_a_sheet(&mut comparison, kind, own.to_string().as_bytes());
        assert_eq!(number, 0);
        let around = [own - 1, own, own + 1, own - 65_536, own + 65_536, -own];
        let ends = [-2_147_483_648, 999, 1_000, 1_001, 2_147_483_647];
        for score in around.into_iter().chain(ends) {
            let holds = score >= own;
            assert_eq!(
                is_opened(&mut comparison, &table, score),
                holds == (kind != 'N'),
                "{kind} of {own}, a bar of {score}"
            );
        }
    }
}
