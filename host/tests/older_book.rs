//! Images that were saved before records and holds had lots (docs/BOOK.md, "Older books"): each loads, by the table of then and by
//! one that is compiled today, its rows show 1 lot, and it is fed, saved and restored as a book of today.

mod older;
#[path = "printed/rows.rs"]
mod rows;

use older::stored;
use position_book::{Bar, Book, Instant, Refusal, Table};
use rows::listed;

const SHEET: &str = "\
P|旧仓|M2609|0|2|100|1|180
O|LO|LO#升
A|d_k_s_up_任意_任意_0
O|SO|SO#降
A|d_k_s_down_任意_任意_0
X|LE|平仓
A|d_k_s_flat_任意_任意_0
X|SE|回补
A|d_k_s_back_任意_任意_0
";

/// How many bars each book has room for.
const BARS: usize = 11;

/// The pairs: closed by an event, the stop, the timeout, a reversal and an event.
const PAIRS: [&str; 5] = [
    "R|M2609|旧仓|L|1791824400000000|1791824460000000|4059000000000000|4059400000000000|1|LO#升@LO -> 平仓@is_match|3f46c16c16c16c17|4059000000000000|1",
    "R|M2609|旧仓|S|1791824520000000|1791824580000000|4059000000000000|4059800000000000|1|SO#降@SO -> 平空@100BP止损|3f46c16c16c16c17|c069000000000000|1",
    "R|M2609|旧仓|L|1791824640000000|1791824700000000|4059000000000000|4059000000000000|3|LO#升@LO -> 平多@2K超时|3f46c16c16c16c17|0000000000000000|1",
    "R|M2609|旧仓|L|1791824760000000|1791824820000000|4059400000000000|4059000000000000|1|LO#升@LO -> SO#降@SO|3f46c16c16c16c17|c058c0a3d70a3d71|1",
    "R|M2609|旧仓|S|1791824820000000|1791824880000000|4059000000000000|4058c00000000000|1|SO#降@SO -> 回补@is_match|3f46c16c16c16c17|4059000000000000|1",
];

/// The holds, each with its yield.
const HOLDS: [&str; 9] = [
    "H|1791824400000000|1|4059000000000000|4059000000000006",
    "H|1791824460000000|0|4059400000000000|c058c0a237c32b1d",
    "H|1791824520000000|-1|4059000000000000|4069000000000006",
    "H|1791824580000000|0|4059800000000000|c068828282828291",
    "H|1791824640000000|1|4059000000000000|0000000000000000",
    "H|1791824700000000|0|4059000000000000|4059000000000006",
    "H|1791824760000000|1|4059400000000000|c058c0a237c32b1d",
    "H|1791824820000000|-1|4059000000000000|c059000000000006",
    "H|1791824880000000|0|4058c00000000000|-",
];

/// An image, how many holds it has, and how many pairs.
const IMAGES: [(&str, usize, usize); 3] = [
    ("book-long", 7, 3),
    ("book-short", 8, 4),
    ("book-flat", 9, 5),
];

/// The table of the sheet, as it was stored and as it is compiled.
fn tables() -> Result<[Table; 2], Refusal> {
    let tables = [
        Table::from_bytes(&older::table("book-table"))?,
        Table::compile(SHEET)?,
    ];
    assert!(tables[0] == tables[1]);
    Ok(tables)
}

/// The lines of a book's first rows; the last hold's yield is not there yet.
fn lines(pairs: usize, holds: usize) -> String {
    let (last, before) = HOLDS[..holds].split_last().unwrap();
    let open = last.rsplit_once('|').unwrap().0;
    let whole = PAIRS[..pairs].iter().chain(before);
    whole.map(|line| format!("{line}\n")).collect::<String>() + &format!("{open}|-\n")
}

/// Bar number 8 or later, a minute behind the one before it; the first two are those that the older books have.
fn bar(number: usize) -> (Bar, String) {
    let (price, value) = match number {
        8 => (100.0, "down"),
        9 => (99.0, "back"),
        10 => (101.0, "up"),
        _ => (102.0, "flat"),
    };
    let minutes = number as i64 - 1;
    let bar = Bar {
        id: number as i64 + 2,
        instant: Instant(1_791_795_600_000_000 + minutes * 60_000_000),
        offset: 28_800,
        price,
    };
    (bar, format!("d_k_s|{value}_a_b_0\n"))
}

fn feed(book: &mut Book, table: &Table, number: usize) -> Result<(), Refusal> {
    let (bar, signals) = bar(number);
    book.feed(table, bar, signals).map(drop)
}

/// The lots in the bytes of all holds, and of all records.
fn lots(book: &[u8]) -> (Vec<u16>, Vec<u16>) {
    let read = |count: u8, start: usize| {
        let places = (0..usize::from(count)).map(|index| start + 32 * index);
        places
            .map(|at| u16::from_le_bytes([book[at], book[at + 1]]))
            .collect()
    };
    (read(book[0], 96 + 14), read(book[4], 96 + 32 * BARS + 30))
}

#[test]
fn an_older_image_loads_with_one_lot() -> Result<(), Refusal> {
    for table in tables()? {
        for (name, holds, pairs) in IMAGES {
            let image = stored(name);
            let none = |count: usize| vec![0; count];
            assert_eq!(lots(&image), (none(holds), none(holds)), "{name}");
            let book = Book::from_image(&table, &image)?;
            assert_eq!(listed(&table, &book)?, lines(pairs, holds), "{name}");
            assert!(book.save(&table)? == image, "{name}: a save changes it");
        }
    }
    Ok(())
}

/// Fed on, an older book has the rows that the later one of then had. The hold that a bar settles has 1 lot from then on, and what
/// is written since has its lots; all other entries stay as they were.
#[test]
fn an_older_book_is_fed_on() -> Result<(), Refusal> {
    let (short, flat) = (8, 9);
    for table in tables()? {
        for (name, holds, _) in IMAGES {
            let mut book = Book::from_image(&table, &stored(name))?;
            for number in holds + 1..=flat {
                feed(&mut book, &table, number)?;
                let older =
                    (96..96 + 32 * (holds - 1)).chain(96 + 32 * BARS..96 + 32 * (BARS + holds));
                assert!(
                    older
                        .clone()
                        .all(|at| book.as_bytes()[at] == stored(name)[at]),
                    "{name}"
                );
            }
            assert_eq!(listed(&table, &book)?, lines(5, flat), "{name}");
            let written = |number: usize, open: u16| u16::from(number > holds) * open;
            let mut expected = (vec![0; flat], vec![0; flat]);
            expected.0[6] = u16::from(holds < short);
            expected.0[7] = u16::from(holds < flat);
            expected.1[7] = written(short, 1);
            expected.1[8] = written(flat, 1);
            assert_eq!(lots(book.as_bytes()), expected, "{name}");
        }
    }
    Ok(())
}

/// A restore brings an older image back whole, and the book goes on from it as before.
#[test]
fn an_older_image_is_restored_after_further_bars() -> Result<(), Refusal> {
    for table in tables()? {
        let image = stored("book-long");
        let mut book = Book::from_image(&table, &image)?;
        feed(&mut book, &table, 8)?;
        let (once, later) = (book.clone(), book.save(&table)?);
        book.restore(&table, &image)?;
        assert!(book.as_bytes() == image);
        feed(&mut book, &table, 8)?;
        assert!(book == once && book.as_bytes() == later);
        assert_eq!(lots(&later).1, [0, 0, 0, 0, 0, 0, 0, 1]);
    }
    Ok(())
}

/// By a sheet that says lots an older long is closed with 1, and what is opened then has the sheet's.
#[test]
fn later_openings_have_the_lots_of_the_sheet() -> Result<(), Refusal> {
    let sheet = SHEET
        .replace("LO#升", "LO#升|5")
        .replace("SO#降", "SO#降|1000");
    let table = Table::compile(sheet)?;
    let mut book = Book::from_image(&table, &stored("book-long"))?;
    for number in 8..=11 {
        feed(&mut book, &table, number)?;
    }
    let expected = (
        vec![0, 0, 0, 0, 0, 0, 1, 1_000, 0, 5, 0],
        vec![0, 0, 0, 0, 0, 0, 0, 1_000, 1_000, 5, 5],
    );
    assert_eq!(lots(book.as_bytes()), expected);
    let shown: Vec<u32> = book.pairs(&table)?.map(|pair| pair.lots).collect();
    assert_eq!(shown, [1, 1, 1, 1, 1_000, 5]);

    let mut exit = Book::from_image(&table, &stored("book-long"))?;
    let (bar, _) = bar(8);
    exit.feed(&table, bar, "d_k_s|flat_a_b_0\n")?;
    assert_eq!(lots(exit.as_bytes()).1, [0, 0, 0, 0, 0, 0, 0, 1]);
    Ok(())
}
