//! What a book keeps of lots (document 02, W4), on both sides: those that each way in and out of a position writes into holds
//! and records, what every number there means to a check, an older book's zeros, and the rows.

use super::{
    Arguments, COMPILE, Call, Comparison, FEED, FEED_LINE, FRESH, HOLD_ROW, PAIR_ROW, PAIR_ROWS,
    RESTORE, SAVE,
};
use position_book::raw::{self, PAIR_ROW_LIMIT, ROW_BUFFER, TABLE_LENGTH, book_length};

/// How many bars a book has room for.
const BARS: usize = 4;
const LOTS: [u16; 7] = [1, 2, 5, 255, 256, 999, 1_000];
/// Numbers of 16 bits: all up to one above the limit's, and some of the others.
fn numbers() -> impl Iterator<Item = u16> {
    (0..1_100)
        .chain((1_100..=65_535).step_by(997))
        .chain([65_535])
}

/// Each side is opened by an event with lots of its own and left by a value of its own; `xl` and `xs` open by an exit.
fn sheet(interval: u32, long: u16, short: u16) -> String {
    let events = [
        format!("O|LO|lo|{long}\nA|k_k_k_lo_v_v_0\n"),
        format!("O|SO|so|{short}\nA|k_k_k_so_v_v_0\n"),
        "O|LO|other|77\nA|k_k_k_ol_v_v_0\nO|SO|other|88\nA|k_k_k_os_v_v_0\n".to_string(),
        "X|LE|le\nA|k_k_k_le_v_v_0\nX|SE|se\nA|k_k_k_se_v_v_0\n".to_string(),
        "X|LO|xl\nA|k_k_k_xl_v_v_0\nX|SO|xs\nA|k_k_k_xs_v_v_0\n".to_string(),
    ];
    format!("P|n|s|{interval}|9|100|1\n{}", events.concat())
}

/// The table of a sheet and a fresh book.
fn fresh(comparison: &mut Comparison, sheet: &str) -> Arguments {
    let arguments = Arguments::compiling(sheet.as_bytes(), vec![0; TABLE_LENGTH]);
    let (number, mut arguments) = comparison.run(&COMPILE, &arguments);
    assert_eq!(number, 0, "{sheet}");
    arguments.book = vec![0; book_length(BARS)];
    arguments.image = vec![0; book_length(BARS)];
    arguments.buffer = vec![7; PAIR_ROW_LIMIT];
    comparison.run(&FRESH, &arguments).1
}

/// Feeds the next bar, of the next second, whose signals say a value.
fn feed(
    comparison: &mut Comparison,
    mut arguments: Arguments,
    (id, price, value): (i64, f64, &str),
) -> Arguments {
    arguments.id = id;
    arguments.instant += 1_000_000;
    arguments.price = price.to_bits();
    arguments.text = format!("k_k_k|{value}_v_v_0\n").into_bytes();
    let (number, after) = comparison.run(&FEED, &arguments);
    assert_eq!(number, 0, "{value}");
    after
}

fn u16_at(book: &[u8], at: usize) -> u16 {
    u16::from_le_bytes([book[at], book[at + 1]])
}

fn set(book: &mut [u8], at: usize, number: u16) {
    book[at..at + 2].copy_from_slice(&number.to_le_bytes());
}

/// Where a hold's lots stand, and a record's event index and lots.
fn hold_lots(index: usize) -> usize {
    96 + 32 * index + 14
}

fn record_index(index: usize) -> usize {
    96 + 32 * (BARS + index) + 28
}

fn record_lots(index: usize) -> usize {
    record_index(index) + 2
}

/// The lots of the first holds, and of all records.
fn kept(book: &[u8]) -> (Vec<u16>, Vec<u16>) {
    let lots = |count: u8, place: fn(usize) -> usize| {
        let places = (0..usize::from(count)).map(place);
        places.map(|at| u16_at(book, at)).collect()
    };
    (lots(book[0], hold_lots), lots(book[4], record_lots))
}

/// Bars by the values of their signals, and the lots of holds and records that they leave. A bar costs 100, with `+` or `-` before
/// its value 2 more or less, and with `!` its id is ten above the one before it.
type Play<'a> = (&'a str, &'a [u16], &'a [u16]);

fn play(comparison: &mut Comparison, fresh: &Arguments, (bars, holds, records): Play) -> Arguments {
    let mut after = fresh.clone();
    for (id, bar) in (1..).zip(bars.split(' ')) {
        let value = bar.trim_start_matches(['+', '-', '!']);
        let bar = match &bar[..bar.len() - value.len()] {
            "+" => (id, 102.0, value),
            "-" => (id, 98.0, value),
            "!" => (id + 9, 100.0, value),
            _ => (id, 100.0, value),
        };
        after = feed(comparison, after, bar);
    }
    let kept = kept(&after.book);
    assert_eq!((&kept.0[..], &kept.1[..]), (holds, records), "{bars}");
    after
}

#[test]
fn each_way_in_and_out_keeps_its_lots() {
    let mut comparison = Comparison::default();
    for (l, s) in LOTS.into_iter().flat_map(|l| LOTS.map(|s| (l, s))) {
        let fresh = fresh(&mut comparison, &sheet(0, l, s));
        let plays: [Play; 12] = [
            ("lo le", &[l, 0], &[l, l]),
            ("so se", &[s, 0], &[s, s]),
            ("lo -no", &[l, 0], &[l, l]),
            ("so +se", &[s, 0], &[s, s]),
            ("lo !se", &[l, 0], &[l, l]),
            ("so !no", &[s, 0], &[s, s]),
            ("lo so se", &[l, s, 0], &[l, s, s]),
            ("so lo le", &[s, l, 0], &[s, l, l]),
            ("lo ol le", &[l, l, 0], &[l, l]),
            ("so os se", &[s, s, 0], &[s, s]),
            ("xl so se", &[1, s, 0], &[1, s, s]),
            ("no lo xs", &[0, l, 1], &[l, 1]),
        ];
        for bars in plays {
            play(&mut comparison, &fresh, bars);
        }
    }
}

/// An opening that the interval forbids closes the other side, with its lots and not the event's.
#[test]
fn a_forbidden_reversal_keeps_the_closed_lots() {
    let mut comparison = Comparison::default();
    let fresh = fresh(&mut comparison, &sheet(1_000, 5, 1_000));
    let plays: [Play; 2] = [
        ("so lo os so", &[1_000, 5, 0, 0], &[1_000, 5, 5]),
        ("lo so ol lo", &[5, 1_000, 0, 0], &[5, 1_000, 1_000]),
    ];
    for bars in plays {
        play(&mut comparison, &fresh, bars);
    }
}

/// A book whose last hold is Long, Short or Flat, and what its check says of a number for lots there.
#[test]
fn every_number_of_the_last_holds_lots_is_judged() {
    let mut comparison = Comparison::default();
    let fresh = fresh(&mut comparison, &sheet(0, 5, 7));
    for (value, leave, most) in [("lo", "le", 1_000), ("so", "se", 1_000), ("no", "no", 0)] {
        let mut open = feed(&mut comparison, fresh.clone(), (1, 100.0, value));
        for number in numbers() {
            set(&mut open.book, hold_lots(0), number);
            let expected = if number <= most { 0 } else { 10 };
            open.line = b"2,1970-01-02 00:00:00+00:00,1".to_vec();
            for call in [&SAVE, &HOLD_ROW, &FEED_LINE] {
                assert_eq!(comparison.run(call, &open).0, expected, "{value}, {number}");
            }
            if expected == 0 && value != "no" {
                let after = feed(&mut comparison, open.clone(), (2, 100.0, leave));
                let read = number.max(1);
                assert_eq!(kept(&after.book).0, [read, 0], "{number}");
                assert_eq!(u16_at(&after.book, record_lots(1)), read, "{number}");
            }
        }
    }
}

/// A book of four bars, long and then stopped, short and then closed.
fn traded(comparison: &mut Comparison) -> Arguments {
    let fresh = fresh(comparison, &sheet(0, 5, 7));
    let bars = ("lo -no so se", &[5, 0, 7, 0][..], &[5, 5, 7, 7][..]);
    play(comparison, &fresh, bars)
}

/// The calls that make the full check: a save and a row by the book, a restore by the same bytes as an image.
fn full_checks(comparison: &mut Comparison, arguments: &Arguments) -> [u64; 3] {
    let image = Arguments {
        image: arguments.book.clone(),
        ..arguments.clone()
    };
    let calls: [(&Call, &Arguments); 3] = [
        (&SAVE, arguments),
        (&PAIR_ROW, arguments),
        (&RESTORE, &image),
    ];
    calls.map(|(call, arguments)| comparison.run(call, arguments).0)
}

#[test]
fn every_number_of_an_older_entry_is_judged() {
    let mut comparison = Comparison::default();
    let book = traded(&mut comparison);
    let indexes = [
        (record_index(0), 7),
        (record_index(1), 0),
        (record_index(2), 7),
    ];
    let holds = [
        (hold_lots(0), 1_000),
        (hold_lots(1), 0),
        (hold_lots(2), 1_000),
    ];
    let records = [0, 1, 2, 3].map(|index| (record_lots(index), 1_000));
    for (at, most) in indexes.into_iter().chain(holds).chain(records) {
        for number in numbers() {
            let mut changed = book.clone();
            set(&mut changed.book, at, number);
            let expected = if number <= most { 0 } else { 10 };
            let numbers = full_checks(&mut comparison, &changed);
            assert_eq!(numbers, [expected; 3], "{number} at {at}");
        }
    }
}

/// A pair row shows its opening record's lots, 1 where that says none, by itself and in a block; refused it has none.
#[test]
fn a_pair_row_ends_with_the_opening_lots() {
    let mut comparison = Comparison::default();
    let mut book = traded(&mut comparison);
    for (number, shown) in [
        (0, 1),
        (1, 1),
        (2, 2),
        (5, 5),
        (256, 256),
        (1_000, 1_000),
        (1_001, 0),
    ] {
        set(&mut book.book, record_lots(0), number);
        for call in [&PAIR_ROW, &PAIR_ROWS] {
            comparison.run(call, &book);
        }
        let row = raw::pair_row(&book.table, &book.book, 0, &mut [0; ROW_BUFFER]);
        assert_eq!(row.lots, shown, "{number}");
        let mut rows = [0; PAIR_ROW_LIMIT];
        let block = raw::pair_rows(&book.table, &book.book, 0, &mut rows);
        assert_eq!(block.rows, if shown == 0 { 0 } else { 2 }, "{number}");
        assert_eq!(rows[88..96], u64::from(shown).to_le_bytes(), "{number}");
    }
}

#[test]
fn a_block_has_room_for_a_longest_pair_row() {
    let mut comparison = Comparison::default();
    let book = traded(&mut comparison);
    for (room, number) in [(2_143, 8), (2_144, 0)] {
        let arguments = Arguments {
            buffer: vec![7; room],
            ..book.clone()
        };
        assert_eq!(comparison.run(&PAIR_ROWS, &arguments).0, number);
    }
}

/// Zeros in an older hold are 1 once the next bar settles it, whatever its price; no other entry is written.
#[test]
fn an_older_books_last_hold_is_settled_with_one_lot() {
    let mut comparison = Comparison::default();
    let fresh = fresh(&mut comparison, &sheet(0, 5, 7));
    for price in [100.0, 0.0, -0.0, -100.0] {
        let mut open = feed(&mut comparison, fresh.clone(), (1, price, "lo"));
        open = feed(&mut comparison, open, (2, price, "no"));
        for at in [hold_lots(0), hold_lots(1), record_lots(0)] {
            set(&mut open.book, at, 0);
        }
        let after = feed(&mut comparison, open, (3, 100.0, "le"));
        assert_eq!(kept(&after.book), (vec![0, 1, 0], vec![0, 1]), "{price}");
    }
}

/// The lots of an image are those of the book again, whatever was fed since and whatever lots the table has now.
#[test]
fn a_restore_brings_the_lots_back() {
    let mut comparison = Comparison::default();
    let fresh = fresh(&mut comparison, &sheet(0, 5, 7));
    let open = feed(&mut comparison, fresh, (1, 100.0, "lo"));
    let saved = comparison.run(&SAVE, &open).1;
    let mut later = feed(&mut comparison, saved, (2, 100.0, "so"));
    later.table[80..82].copy_from_slice(&1_998u16.to_le_bytes());
    let (number, back) = comparison.run(&RESTORE, &later);
    assert_eq!((number, kept(&back.book)), (0, (vec![5], vec![5])));
    let closed = feed(&mut comparison, back, (3, 100.0, "le"));
    assert_eq!(kept(&closed.book), (vec![5, 0], vec![5, 5]));
    let reopened = feed(&mut comparison, closed, (4, 100.0, "lo"));
    assert_eq!(kept(&reopened.book), (vec![5, 0, 1_000], vec![5, 5, 1_000]));
}
