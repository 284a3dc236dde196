//! Tables that were stored by earlier versions (docs/TABLE.md, "Older and later tables").
//!
//! One of the former layout is none: every exported call that takes a table gives 9 for it and changes no byte, whatever
//! its interval is. Its stop would be read as a hundredth of what was signed. One of this layout from before sheets had an
//! evening, or lots, is a table still, with the meaning that it had; where these now stand it has zeros. So is one from
//! before scores could be above 100.

mod older;
mod printed;

use older::table as older;
use position_book::{Refusal, Table, raw};
use printed::{file, printed, season};

/// Tables as they were compiled before stops had decimals: case *1's, and the season's.
const OLDER: [&str; 2] = ["case1", "season"];

/// Tables as they were compiled before sheets had an evening, and of each the run program's input with its sheet and what
/// is printed of it.
const WITHOUT_EVENING: [[&str; 3]; 2] = [
    [
        "case1-without-evening",
        "crates/run/stdin",
        "crates/run/stdout",
    ],
    [
        "season-without-evening",
        "examples/season",
        "examples/season.out",
    ],
];

/// Tables as they were compiled before openings had lots, in the same way: those above, and one with an evening.
const WITHOUT_LOTS: [[&str; 3]; 3] = [
    WITHOUT_EVENING[0],
    WITHOUT_EVENING[1],
    [
        "evening-without-lots",
        "examples/evening",
        "examples/evening.out",
    ],
];

/// Tables as they were compiled before scores could be above 100, in the same way: those above, and one with lots.
const SCORES_TO_100: [[&str; 3]; 4] = [
    WITHOUT_LOTS[0],
    WITHOUT_LOTS[1],
    WITHOUT_LOTS[2],
    [
        "lots-with-scores-to-100",
        "examples/lots",
        "examples/lots.out",
    ],
];

/// Where the evening stands in a table.
const EVENING: std::ops::Range<usize> = 18..20;

/// Intervals at the former range's ends and between them, where the layout number stands now; then numbers beside that
/// one, and that one, which no interval was.
const INTERVALS: [u32; 14] = [
    0,
    1,
    2,
    60,
    80,
    3_600,
    86_400,
    1 << 24,
    4_102_444_799,
    4_102_444_800,
    0xff00_0001,
    0xff00_0003,
    u32::MAX,
    0xff00_0002,
];

/// The calls that take a table, by their names in `raw`.
const CALLS: [&str; 10] = [
    "feed",
    "feed_line",
    "save",
    "restore",
    "pair_row",
    "hold_row",
    "pair_rows",
    "hold_rows",
    "counts",
    "event_name",
];

/// What the calls are lent.
#[derive(Clone, Debug, PartialEq)]
struct Lent {
    table: Vec<u8>,
    book: Vec<u8>,
    image: Vec<u8>,
    buffer: Vec<u8>,
}

/// A table of today, a book by it with two holds and a pair, an image and a row buffer.
fn lent() -> Lent {
    let mut lent = Lent {
        table: vec![0; raw::TABLE_LENGTH],
        book: vec![0; raw::book_length(4)],
        image: vec![0; raw::book_length(4)],
        buffer: vec![7; raw::PAIR_ROW_LIMIT],
    };
    let sheet = "P|soy|M1|0|5|12.50|1\nO|LO|go\nA|d1_u_w_up_任意_任意_10\n";
    assert_eq!(raw::compile(sheet.as_bytes(), &mut lent.table), 0);
    assert_eq!(raw::fresh(&mut lent.book), 0);
    for (id, price, signals) in [(1, 100.0, "d1_u_w|up_a_b_10\n"), (2, 99.0, "")] {
        let fed = raw::feed(
            &lent.table,
            &mut lent.book,
            id,
            id,
            0,
            price,
            signals.as_bytes(),
        );
        assert_eq!(fed.number, 0);
    }
    assert_eq!(raw::save(&lent.table, &lent.book, &mut lent.image), 0);
    lent
}

/// The number that a call gives.
fn number(call: &str, lent: &mut Lent) -> u32 {
    let Lent {
        table,
        book,
        image,
        buffer,
    } = lent;
    match call {
        "feed" => raw::feed(table, book, 3, 3, 0, 98.0, b"").number,
        "feed_line" => raw::feed_line(table, book, b"4,1970-01-02 00:00:00+00:00,97", b"").number,
        "save" => raw::save(table, book, image),
        "restore" => raw::restore(table, book, image),
        "pair_row" => raw::pair_row(table, book, 0, buffer).number,
        "hold_row" => raw::hold_row(table, book, 0).number,
        "pair_rows" => raw::pair_rows(table, book, 0, buffer).number,
        "hold_rows" => raw::hold_rows(table, book, 0, buffer).number,
        "counts" => raw::counts(table, book).number,
        _ => raw::event_name(table, 0, buffer).number,
    }
}

#[test]
fn every_call_takes_the_table_of_today() {
    for call in CALLS {
        assert_eq!(number(call, &mut lent()), 0, "{call}");
    }
}

#[test]
fn every_call_refuses_an_older_table_and_changes_nothing() {
    let mut lent = lent();
    for name in OLDER {
        lent.table = older(name);
        let intervals = INTERVALS.map(u32::to_le_bytes);
        let own = [lent.table[..4].try_into().unwrap()];
        for interval in own.iter().chain(&intervals) {
            lent.table[..4].copy_from_slice(interval);
            for call in CALLS {
                let mut after = lent.clone();
                assert_eq!(number(call, &mut after), 9, "{call}, {name}, {interval:?}");
                assert!(after == lent, "{call}, {name}, {interval:?}");
            }
            assert_eq!(Table::from_bytes(&lent.table), Err(Refusal::NotTable));
        }
    }
}

/// The table of a sheet's text.
fn compiled(sheet: &str) -> Vec<u8> {
    let mut table = vec![7; raw::TABLE_LENGTH];
    assert_eq!(raw::compile(sheet.as_bytes(), &mut table), 0, "{sheet}");
    table
}

#[test]
fn every_call_takes_an_older_table_of_this_layout() {
    let mut lent = lent();
    for [name, ..] in SCORES_TO_100 {
        lent.table = older(name);
        for call in CALLS {
            assert_eq!(number(call, &mut lent.clone()), 0, "{call}, {name}");
        }
    }
}

/// An older table is that of its sheet, also where the sheet says what it could not say then, and prints what it printed.
fn is_kept([name, input, output]: [&str; 3], said: impl Fn(&str) -> String) -> Result<(), Refusal> {
    let (table, input) = (older(name), file(input));
    let (sheet, lines) = season(&input);
    assert!(compiled(sheet) == table, "{name} is not its sheet's table");
    assert!(compiled(&said(sheet)) == table, "{name} says another");
    let table = Table::from_bytes(&table)?;
    assert_eq!(printed(&table, lines)?, file(output), "{name}");
    Ok(())
}

#[test]
fn a_table_without_an_evening_means_what_it_meant() -> Result<(), Refusal> {
    let mut tables = WITHOUT_EVENING.into_iter();
    tables.try_for_each(|table| is_kept(table, |sheet| sheet.replacen('\n', "|0\n", 1)))
}

#[test]
fn a_table_without_lots_means_what_it_meant() -> Result<(), Refusal> {
    let mut tables = WITHOUT_LOTS.into_iter();
    tables.try_for_each(|table| is_kept(table, |sheet| with_lots(sheet, 1)))
}

#[test]
fn a_table_with_scores_to_100_means_what_it_meant() -> Result<(), Refusal> {
    let mut tables = SCORES_TO_100.into_iter();
    tables.try_for_each(|table| is_kept(table, |sheet| sheet.to_string()))
}

/// A sheet whose first clause has that score.
fn with_score(sheet: &str, score: u16) -> String {
    let clause = sheet.find("\nA|").expect("an A clause comes first") + 1;
    let end = clause + sheet[clause..].find('\n').unwrap();
    let place = sheet[..end].rfind('_').unwrap() + 1;
    format!("{}{score}{}", &sheet[..place], &sheet[end..])
}

/// With another score set in its first clause it is the table of the sheet with that score.
#[test]
fn higher_scores_fit_in_a_table_with_scores_to_100() {
    for [name, input, _] in SCORES_TO_100 {
        let (mut table, input) = (older(name), file(input));
        let clauses = u32::from_le_bytes(table[48..52].try_into().unwrap()) as usize;
        for score in 0..=1_000u16 {
            table[clauses + 10..clauses + 12].copy_from_slice(&score.to_le_bytes());
            let said = compiled(&with_score(season(&input).0, score));
            assert!(said == table, "{name}, {score}");
        }
        table[clauses + 10..clauses + 12].copy_from_slice(&1_001u16.to_le_bytes());
        assert_eq!(Table::from_bytes(&table), Err(Refusal::NotTable), "{name}");
    }
}

/// A sheet whose openings all say so many lots.
fn with_lots(sheet: &str, lots: u16) -> String {
    let said = |line: &str| match line.strip_prefix("O|") {
        Some(opening) => format!("O|{opening}|{lots}\n"),
        None => format!("{line}\n"),
    };
    sheet.lines().map(said).collect()
}

/// With lots set in the kinds of its openings it is the table of the sheet with those third values.
#[test]
fn lots_fit_in_a_table_without_them() {
    for [name, input, _] in WITHOUT_LOTS {
        let (mut table, input) = (older(name), file(input));
        let events = u32::from_le_bytes(table[20..24].try_into().unwrap()) as usize;
        let kinds: Vec<usize> = (0..events).map(|event| 80 + 12 * event).collect();
        let openings: Vec<usize> = kinds.into_iter().filter(|at| table[*at] == 0).collect();
        let mut set = |lots: u16| {
            for at in &openings {
                table[*at..at + 2].copy_from_slice(&(2 * (lots - 1)).to_le_bytes());
            }
            table.clone()
        };
        for lots in 1..=1_000 {
            let said = compiled(&with_lots(season(&input).0, lots));
            assert!(said == set(lots), "{name}, {lots}");
        }
        let above = Table::from_bytes(&set(1_001));
        assert_eq!(above, Err(Refusal::NotTable), "{name}");
    }
}

/// With an evening set in its bytes it is the table of the sheet with that seventh value.
#[test]
fn an_evening_fits_in_a_table_without_one() {
    for [name, input, _] in WITHOUT_EVENING {
        let (mut table, input) = (older(name), file(input));
        assert_eq!(table[EVENING], [0, 0]);
        for minutes in 0..=1_439u16 {
            let said = season(&input).0.replacen('\n', &format!("|{minutes}\n"), 1);
            table[EVENING].copy_from_slice(&minutes.to_le_bytes());
            assert!(compiled(&said) == table, "{name}, {minutes}");
        }
        table[EVENING].copy_from_slice(&1_440u16.to_le_bytes());
        assert_eq!(Table::from_bytes(&table), Err(Refusal::NotTable), "{name}");
    }
}

/// Every call with a table among its arguments is in the list.
#[test]
fn no_call_is_left_out() {
    let declared = include_str!("../src/raw.rs").split("pub fn ").skip(1);
    let taking = declared.filter(|text| text.split('{').next().unwrap().contains("table: &[u8]"));
    let names: Vec<&str> = taking.map(|text| text.split('(').next().unwrap()).collect();
    assert_eq!(names, CALLS);
}
