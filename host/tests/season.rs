//! The seasons through the safe API, with a save and a restore into another book after every bar: what is printed is what the run program
//! prints.

mod printed;

use position_book::{Bar, Book, Instant, Refusal, Table};
use printed::{bars, file, printed, season};

#[test]
fn the_seasons_are_printed_as_by_the_run_program() -> Result<(), Refusal> {
    for name in ["season", "evening", "lots"] {
        let input = file(&format!("examples/{name}"));
        let (sheet, lines) = season(&input);
        let expected = file(&format!("examples/{name}.out"));
        assert_eq!(printed(&Table::compile(sheet)?, lines)?, expected, "{name}");
    }
    Ok(())
}

/// Each line of the comma file is answered as its bar is, and leaves the same book, byte for byte.
#[test]
fn the_comma_file_says_the_season() -> Result<(), Refusal> {
    let input = file("examples/season");
    let (sheet, lines) = season(&input);
    assert_eq!(file("examples/comma/sheet"), sheet);
    let table = Table::compile(sheet)?;
    let (mut by_number, mut by_line) = (Book::fresh(20)?, Book::fresh(20)?);
    let (bars, comma) = (bars(lines), file("examples/comma/bars.csv"));
    assert_eq!(comma.lines().count(), bars.len());
    for ((bar, signals), line) in bars.into_iter().zip(comma.lines()) {
        let decision = by_line.feed_line(&table, line, &signals);
        assert_eq!(decision, by_number.feed(&table, bar, &signals), "{line}");
        assert_eq!(by_line, by_number, "{line}");
    }
    Ok(())
}

#[test]
fn refusals_change_nothing_and_say_why() -> Result<(), Refusal> {
    let table = Table::compile("P|soy|M1|0|5|100|0\n")?;
    let mut book = Book::fresh(2)?;
    let first = Bar {
        id: 1,
        instant: Instant(10_000_000),
        offset: 0,
        price: 1.0,
    };
    book.feed(&table, first, "")?;
    let before = book.clone();
    let late = Bar {
        instant: Instant(9_999_999),
        ..first
    };
    let infinite = Bar {
        instant: Instant(10_000_001),
        price: f64::INFINITY,
        ..first
    };
    let twice = "a|1_2_3_4\na|1_2_3_4\n";
    assert_eq!(book.feed(&table, late, ""), Err(Refusal::NotLater));
    assert_eq!(book.feed(&table, infinite, ""), Err(Refusal::BarOutOfRange));
    assert_eq!(book.feed(&table, first, twice), Err(Refusal::KeyTwice));
    assert_eq!(book.feed(&table, first, [0xff]), Err(Refusal::NotUtf8));
    let mut line = |line: &[u8]| book.feed_line(&table, line, "").map_err(Refusal::number);
    assert_eq!(line(b"2,1970-01-01 00:00:10+00:00,1"), Err(13));
    assert_eq!(line(b"2,1970-01-01 00:00:11+00:00,1\r"), Err(16));
    assert_eq!(line(b"2,1970-01-01 00:00:60+00:00,1"), Err(16));
    assert_eq!(line(b"2,1970-02-29 00:00:11+00:00,1.1234567"), Err(16));
    assert_eq!(line(b"2,1970-02-28 00:00:11+00:00,1.1234567"), Err(17));
    assert_eq!(line(b"2147483648,1970-02-28 00:00:11+00:00,1"), Err(11));
    assert_eq!(book.restore(&table, &[0; 96]), Err(Refusal::WrongLength));
    assert_eq!(book.restore(&table, &[1; 224]), Err(Refusal::NotBook));
    assert_eq!(Book::fresh(1_000_001), Err(Refusal::WrongLength));
    assert_eq!(book, before);
    assert_eq!(
        Refusal::NotLater.to_string(),
        "the bar is not later than the one before it (13)"
    );
    Ok(())
}
