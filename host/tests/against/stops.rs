//! Stops finer than a basis point at the boundaries of document 02, W2, on both sides: a fixed list of stop fields with
//! what they say and how they are shown, every byte at every place of one, and losses at a stop and beside it.

use super::{Arguments, Comparison, FEED, FRESH, PAIR_ROW, every_byte_at_every_place};
use position_book::raw::{ROW_BUFFER, book_length};

/// Stop fields that are read, and of each the hundredths and the text that a sequence shows.
const READ: &str = "\
0 = 0 0
0.0 = 0 0
00.00 = 0 0
0.01 = 1 0.01
0.05 = 5 0.05
0.1 = 10 0.1
0.10 = 10 0.1
0.99 = 99 0.99
1 = 100 1
1.00 = 100 1
1.1 = 110 1.1
7.25 = 725 7.25
10.0 = 1000 10
10.05 = 1005 10.05
12.5 = 1250 12.5
12.50 = 1250 12.5
0012.50 = 1250 12.5
0000000012.50 = 1250 12.5
99.99 = 9999 99.99
100.10 = 10010 100.1
500 = 50000 500
500.00 = 50000 500
879.55 = 87955 879.55
123456.78 = 12345678 123456.78
999999 = 99999900 999999
999999.09 = 99999909 999999.09
999999.9 = 99999990 999999.9
999999.99 = 99999999 999999.99
1000000 = 100000000 1000000
1000000.0 = 100000000 1000000
1000000.00 = 100000000 1000000
0001000000.00 = 100000000 1000000
";

/// Stop fields that give 3.
const NO_STOP: [&str; 46] = [
    "",
    ".",
    "..",
    "12.",
    "0.",
    ".5",
    ".50",
    "12.500",
    "12.000",
    "0.001",
    "12..5",
    "1.2.3",
    "12.5.",
    ".12.5",
    "12,5",
    "12;5",
    "12:5",
    "12/5",
    "12 5",
    "+12.5",
    "-12.5",
    "-0.0",
    "12.+5",
    "12.-5",
    " 12.5",
    "12.5 ",
    "12 .5",
    "12. 5",
    "x.5",
    "12.x",
    "12.5x",
    "1e2",
    "1.5e2",
    "0x1.5",
    "inf",
    "12．5",
    "１2.5",
    "12.５",
    "00000000012.5",
    "00000000000",
    "1000000.01",
    "1000000.1",
    "1000000.99",
    "1000001.00",
    "42949672.96",
    "9999999999.99",
];

/// Losses at a stop and beside it: whether the position is long, the stop, the reference's price, the bar's, and
/// whether it closes. At 879.55 to 49.96 one rounding of the stop would say the other.
const LOSSES: [(bool, &str, f64, f64, bool); 14] = [
    (true, "156.25", 64.0, 63.0, false),
    (true, "156.25", 64.0, 62.99999999999999, true),
    (false, "156.25", 64.0, 65.0, false),
    (false, "156.25", 64.0, 65.00000000000001, true),
    (true, "12.50", 3200.0, 3196.01, false),
    (true, "12.50", 3200.0, 3195.99, true),
    (false, "7.25", 4000.0, 4002.89, false),
    (false, "7.25", 4000.0, 4002.91, true),
    (true, "879.55", 2000.0, 1824.09, true),
    (false, "879.55", 2000.0, 2175.91, true),
    (true, "19.15", 3000.0, 2994.255, true),
    (false, "38.30", 3100.0, 3111.873, true),
    (true, "24.98", 2000.0, 1995.004, false),
    (false, "49.96", 3000.0, 3014.988, false),
];

/// What compiling gives on both sides for a stop field: the number, and the arguments at exit.
fn compiled(comparison: &mut Comparison, field: &[u8]) -> (u64, Arguments) {
    let events = b"|1\nO|LO|o\nA|k_k_k_up_v_v_0\nO|SO|o\nA|k_k_k_down_v_v_0\n";
    comparison.compile(&[b"P|n|s|0|9|", field, events].concat())
}

/// The stop in a table, in hundredths.
fn stop(arguments: &Arguments) -> u32 {
    u32::from_le_bytes(arguments.table[12..16].try_into().unwrap())
}

/// A book by a table that was compiled: a side opened at the first price, and a bar at the second.
fn two_bars(
    comparison: &mut Comparison,
    table: Arguments,
    long: bool,
    prices: [f64; 2],
) -> Arguments {
    let mut arguments = table;
    arguments.book = vec![0; book_length(2)];
    arguments = comparison.run(&FRESH, &arguments).1;
    let opening = if long {
        "k_k_k|up_v_v_0\n"
    } else {
        "k_k_k|down_v_v_0\n"
    };
    for (id, price, signals) in [(1, prices[0], opening), (2, prices[1], "")] {
        arguments.id = id;
        arguments.instant = id;
        arguments.price = price.to_bits();
        arguments.text = signals.as_bytes().to_vec();
        let (number, after) = comparison.run(&FEED, &arguments);
        assert_eq!(number, 0);
        arguments = after;
    }
    arguments
}

/// The sequence of the first pair of a book, if there is one.
fn sequence(comparison: &mut Comparison, mut arguments: Arguments) -> Option<String> {
    arguments.buffer = vec![0; ROW_BUFFER];
    let (number, after) = comparison.run(&PAIR_ROW, &arguments);
    let text = String::from_utf8(after.buffer).unwrap();
    let text = text.trim_end_matches('\0').strip_prefix("sn");
    (number == 0).then(|| text.unwrap().to_string())
}

#[test]
fn stop_fields_are_read_and_shown_as_they_say() {
    let mut comparison = Comparison::default();
    for row in READ.lines() {
        let (field, said) = row.split_once(" = ").unwrap();
        let (hundredths, text) = said.split_once(' ').unwrap();
        let (number, table) = compiled(&mut comparison, field.as_bytes());
        assert_eq!(
            (number, stop(&table)),
            (0, hundredths.parse().unwrap()),
            "{field}"
        );
        for (long, closing) in [(true, "平多"), (false, "平空")] {
            let prices = if long { [1.0, -1e9] } else { [1.0, 1e9] };
            let book = two_bars(&mut comparison, table.clone(), long, prices);
            let shown = format!("o@is_match -> {closing}@{text}BP止损");
            assert_eq!(sequence(&mut comparison, book), Some(shown), "{field}");
        }
    }
}

#[test]
fn other_stop_fields_are_refused() {
    let mut comparison = Comparison::default();
    for field in NO_STOP {
        assert_eq!(
            compiled(&mut comparison, field.as_bytes()).0,
            3,
            "{field:?}"
        );
    }
}

#[test]
fn every_byte_at_every_place_of_a_stop_is_the_models() {
    let mut comparison = Comparison::default();
    every_byte_at_every_place(
        &[&b"12.50"[..], b"7.2", b"1000000.00", b"0999999999.99"],
        |field| {
            compiled(&mut comparison, field);
        },
    );
}

#[test]
fn every_pair_of_decimals_is_read() {
    let mut comparison = Comparison::default();
    for whole in [0, 12, 9_999, 999_999, 1_000_000] {
        for rest in 0..100 {
            let expected = if whole == 1_000_000 && rest > 0 { 3 } else { 0 };
            let (number, after) =
                compiled(&mut comparison, format!("{whole}.{rest:02}").as_bytes());
            assert_eq!(number, expected, "{whole}.{rest:02}");
            assert!(
                number == 3 || stop(&after) == 100 * whole + rest,
                "{whole}.{rest:02}"
            );
        }
    }
}

#[test]
fn losses_close_as_the_stop_says() {
    let mut comparison = Comparison::default();
    for (long, field, reference, price, closes) in LOSSES {
        let (_, table) = compiled(&mut comparison, field.as_bytes());
        let book = two_bars(&mut comparison, table, long, [reference, price]);
        let shown = sequence(&mut comparison, book);
        assert_eq!(shown.is_some(), closes, "{field}, {reference} to {price}");
    }
}
