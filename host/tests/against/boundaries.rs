//! The exchange's comma lines at the boundaries of document 02, W1, on both sides: a fixed list of lines with what they
//! say, every day, every byte at every place, and every set of faults.

use super::{Arguments, COMPILE, Comparison, FEED_LINE, FRESH};
use position_book::raw::{TABLE_LENGTH, book_length};

/// Lines that are read, and of each the id, the instant in seconds, the offset in seconds and the bits of the price.
const READ: &str = "\
0,1970-01-01 00:00:00+00:00,0 = 0 0 0 0000000000000000
1,1970-01-01 00:00:00-00:00,0.000000 = 1 0 0 0000000000000000
2,1970-01-01 23:59:00+23:59,000000000000001 = 2 0 86340 3ff0000000000000
3,1970-02-28 23:59:59+00:00,4.903 = 3 5097599 0 40139cac083126e9
4,1970-03-01 00:00:00+00:00,5.581 = 4 5097600 0 401652f1a9fbe76d
5,1972-02-28 23:59:59+00:00,1.2815 = 5 68169599 0 3ff4810624dd2f1b
6,1972-02-29 00:00:00-00:01,62.3 = 6 68169660 -60 404f266666666666
7,1972-03-01 00:00:00+00:01,62.30 = 7 68255940 60 404f266666666666
8,2000-02-29 12:34:56+08:00,062.300 = 8 951798896 28800 404f266666666666
9,2000-03-01 12:34:56-05:00,100 = 9 951932096 -18000 4059000000000000
10,2023-02-28 09:30:00+05:45,999999999999999 = 10 1677555900 20700 430c6bf52633fff8
11,2023-03-01 09:30:00-09:30,999999999.999999 = 11 1677697200 -34200 41cdcd64fffffff8
12,2024-02-29 23:59:59+23:59,9007199254740.99 = 12 1709164859 86340 42a0624dd2f1a9fb
0000000013,2024-02-29 00:00:00-23:59,900719925.474099 = 13 1709251140 -86340 41cad7f29abcaf47
14,2024-12-31 23:00:00+14:00,0.000001 = 14 1735635600 50400 3eb0c6f7a0b5ed8d
15,2096-02-29 00:59:00+00:59,0.1 = 15 3981312000 3540 3fb999999999999a
16,2096-03-01 00:00:59-12:00,0.7 = 16 3981441659 -43200 3fe6666666666666
17,2099-02-28 00:00:00+00:00,123456789.012345 = 17 4075920000 0 419d6f34540ca42b
18,2099-03-01 00:00:00+00:00,1.0 = 18 4076006400 0 3ff0000000000000
2147483647,2099-12-31 23:59:59+00:00,5.000000 = 2147483647 4102444799 0 4014000000000000
2147483647,2099-12-31 00:00:59-23:59,8.41 = 2147483647 4102444799 -86340 4020d1eb851eb852
0,2099-12-31 23:59:59+23:59,2.675 = 0 4102358459 86340 4005666666666666
";

/// Lines that are not of the form, or name no real day or time.
const NO_LINE: [&str; 100] = [
    "",
    ",",
    ",,",
    ",,,",
    "1",
    "1,",
    "1,1",
    "no line",
    "1,1969-12-31 00:00:00+00:00,1",
    "1,2100-01-01 00:00:00+00:00,1",
    "1,0000-01-01 00:00:00+00:00,1",
    "1,9999-12-31 00:00:00+00:00,1",
    "1,1970-02-29 00:00:00+00:00,1",
    "1,1972-02-30 00:00:00+00:00,1",
    "1,2000-02-30 00:00:00+00:00,1",
    "1,2023-02-29 00:00:00+00:00,1",
    "1,2024-02-30 00:00:00+00:00,1",
    "1,2096-02-30 00:00:00+00:00,1",
    "1,2099-02-29 00:00:00+00:00,1",
    "1,2024-00-01 00:00:00+00:00,1",
    "1,2024-13-01 00:00:00+00:00,1",
    "1,2024-01-00 00:00:00+00:00,1",
    "1,2024-01-32 00:00:00+00:00,1",
    "1,2024-03-32 00:00:00+00:00,1",
    "1,2024-04-31 00:00:00+00:00,1",
    "1,2024-05-32 00:00:00+00:00,1",
    "1,2024-06-31 00:00:00+00:00,1",
    "1,2024-07-32 00:00:00+00:00,1",
    "1,2024-08-32 00:00:00+00:00,1",
    "1,2024-09-31 00:00:00+00:00,1",
    "1,2024-10-32 00:00:00+00:00,1",
    "1,2024-11-31 00:00:00+00:00,1",
    "1,2024-12-32 00:00:00+00:00,1",
    "1,1969-12-31 23:59:59-23:59,1",
    "1,2100-01-01 00:00:00+23:59,1",
    "1,2024-01-01 24:00:00+00:00,1",
    "1,2024-01-01 23:60:00+00:00,1",
    "1,2024-01-01 23:59:60+00:00,1",
    "1,2024-01-01 23:59:61+00:00,1",
    "1,2024-01-01 00:00:00+24:00,1",
    "1,2024-01-01 00:00:00-24:00,1",
    "1,2024-01-01 00:00:00+23:60,1",
    "1,2024-01-01 00:00:00-00:60,1",
    "1,2024-01-01 00:00:00+00:99,1",
    "1,2024-01-01 00:00:00Z,1",
    "1,2024-01-01 00:00:00 00:00,1",
    "1,2024-01-01 00:00:0000:00,1",
    "1,2024-01-01 00:00:00+00,1",
    "1,2024-01-01 00:00:00+0000,1",
    "1,2024-01-01 00:00:00+00:00:00,1",
    "1,202-01-31 12:34:56+01:23,7",
    "1,02024-01-31 12:34:56+01:23,7",
    "1,2024-1-31 12:34:56+01:23,7",
    "1,2024-001-31 12:34:56+01:23,7",
    "1,2024-01-3 12:34:56+01:23,7",
    "1,2024-01-031 12:34:56+01:23,7",
    "1,2024-01-31 2:34:56+01:23,7",
    "1,2024-01-31 012:34:56+01:23,7",
    "1,2024-01-31 12:4:56+01:23,7",
    "1,2024-01-31 12:034:56+01:23,7",
    "1,2024-01-31 12:34:6+01:23,7",
    "1,2024-01-31 12:34:056+01:23,7",
    "1,2024-01-31 12:34:56+1:23,7",
    "1,2024-01-31 12:34:56+001:23,7",
    "1,2024-01-31 12:34:56+01:3,7",
    "1,2024-01-31 12:34:56+01:023,7",
    "1,2024-01-01 00:00:00+00:00,",
    "1,2024-01-01 00:00:00+00:00,12.",
    "1,2024-01-01 00:00:00+00:00,.5",
    "1,2024-01-01 00:00:00+00:00,.",
    "1,2024-01-01 00:00:00+00:00,1.2.3",
    "1,2024-01-01 00:00:00+00:00,+1",
    "1,2024-01-01 00:00:00+00:00,-1",
    "1,2024-01-01 00:00:00+00:00,1e3",
    "1,2024-01-01 00:00:00+00:00,1,5",
    "1,2024-01-01 00:00:00+00:00, 1",
    "1,2024-01-01 00:00:00+00:00,1 ",
    "1,2024-01-01 00:00:00+00:00,0x1",
    "1,2024-01-01 00:00:00+00:00,1_0",
    "1,2024-01-01 00:00:00+00:00,１",
    "1,2024-01-01 00:00:00+00:00,1234567890123456.",
    "1,2024-01-01 00:00:00+00:00,1234567890123456x",
    "1,2024-01-01 00:00:00+00:00,1.0000000.",
    "1,2023-02-29 00:00:00+00:00,1234567890123456",
    ",2024-01-01 00:00:00+00:00,1",
    "-1,2024-01-01 00:00:00+00:00,1",
    "+1,2024-01-01 00:00:00+00:00,1",
    " 1,2024-01-01 00:00:00+00:00,1",
    "00000000001,2024-01-01 00:00:00+00:00,1",
    "2147483648x,2024-01-01 00:00:00+00:00,1",
    "1,2024-01-31 12:34:56+01:23,7\r",
    "1,2024-01-31 12:34:56+01:23,7\n",
    "1,2024-01-31 12:34:56+01:23,7\0",
    "1,2024-01-31 12:34:56+01:23,7,",
    "1,2024-01-31 12:34:56+01:23,7|",
    "1,2024-01-31 12:34:56+01:23,7,7",
    " 1,2024-01-31 12:34:56+01:23,7",
    "\u{feff}1,2024-01-31 12:34:56+01:23,7",
    "1,2024-01-31T12:34:56+01:23,7",
    "1, 2024-01-31 12:34:56+01:23,7",
];

/// Lines whose price has more digits, some with an id or an instant outside its range.
const LONG_PRICE: [&str; 10] = [
    "1,2024-01-01 00:00:00+00:00,1234567890123456",
    "1,2024-01-01 00:00:00+00:00,0000000000000001",
    "1,2024-01-01 00:00:00+00:00,1.0000000",
    "1,2024-01-01 00:00:00+00:00,1234567890.123456",
    "1,2024-01-01 00:00:00+00:00,0.1234567",
    "1,2024-01-01 00:00:00+00:00,123456789012345678901234567890",
    "2147483648,2024-01-01 00:00:00+00:00,1234567890123456",
    "9999999999,2024-01-01 00:00:00+00:00,1.0000000",
    "1,1970-01-01 00:00:00+00:01,0.1234567",
    "1,2099-12-31 23:59:59-00:01,0.1234567",
];

/// Lines whose id or instant is outside its range.
const OUTSIDE: [&str; 8] = [
    "2147483648,2024-01-01 00:00:00+00:00,1",
    "4294967296,2024-01-01 00:00:00+00:00,1",
    "9999999999,2024-01-01 00:00:00+00:00,1",
    "1,1970-01-01 00:00:00+00:01,1",
    "1,1970-01-01 23:58:59+23:59,1",
    "1,2099-12-31 23:59:59-00:01,1",
    "1,2099-12-31 00:01:00-23:59,1",
    "2147483648,1970-01-01 00:00:00+00:01,1",
];

/// The table of a sheet whose one event always opens, so that every bar is the reference, and a fresh book.
fn opening(comparison: &mut Comparison, bars: usize) -> Arguments {
    let sheet = Arguments::compiling(b"P|n|s|0|0|0|1\nO|LO|o\n", vec![0; TABLE_LENGTH]);
    let (_, mut arguments) = comparison.run(&COMPILE, &sheet);
    arguments.text.clear();
    arguments.book = vec![0; book_length(bars)];
    comparison.run(&FRESH, &arguments).1
}

/// What a line gives on both sides: the number, and the book after it.
fn given(comparison: &mut Comparison, arguments: &Arguments, line: &[u8]) -> (u64, Vec<u8>) {
    let mut arguments = arguments.clone();
    arguments.line = line.to_vec();
    let (number, after) = comparison.run(&FEED_LINE, &arguments);
    (number, after.book)
}

/// The bar that a book has as its reference: the id, the instant in seconds, the offset and the bits of the price.
fn reference(book: &[u8]) -> String {
    let word = |at: usize| i64::from_le_bytes(book[at..at + 8].try_into().unwrap());
    let half = |at: usize| i32::from_le_bytes(book[at..at + 4].try_into().unwrap());
    assert_eq!(word(72) % 1_000_000, 0);
    let seconds = word(72) / 1_000_000;
    format!("{} {seconds} {} {:016x}", half(68), half(80), word(88))
}

#[test]
fn lines_are_read_as_they_say() {
    let mut comparison = Comparison::default();
    let arguments = opening(&mut comparison, 1);
    for row in READ.lines() {
        let (line, said) = row.split_once(" = ").unwrap();
        let (number, book) = given(&mut comparison, &arguments, line.as_bytes());
        assert_eq!(number, 0, "{line}");
        assert_eq!(reference(&book), said, "{line}");
    }
}

#[test]
fn lines_are_refused_by_their_numbers() {
    let mut comparison = Comparison::default();
    let arguments = opening(&mut comparison, 1);
    let lists: [(u64, &[&str]); 3] = [(16, &NO_LINE), (17, &LONG_PRICE), (11, &OUTSIDE)];
    for (expected, lines) in lists {
        for line in lines {
            let (number, _) = given(&mut comparison, &arguments, line.as_bytes());
            assert_eq!(number, expected, "{line:?}");
        }
    }
}

#[test]
fn every_day_is_the_models() {
    let mut comparison = Comparison::default();
    let arguments = opening(&mut comparison, 1);
    let mut days = 0i64;
    for year in 1969..=2100 {
        for (month, day) in (0..=13).flat_map(|month| (0..=32).map(move |day| (month, day))) {
            let line = format!("1,{year}-{month:02}-{day:02} 00:00:00+00:00,1");
            let (number, book) = given(&mut comparison, &arguments, line.as_bytes());
            if number == 0 {
                let instant = days * 86_400_000_000;
                assert_eq!(book[32..40], instant.to_le_bytes(), "{line}");
                days += 1;
            }
        }
    }
    assert_eq!(days, 47_482);
}

#[test]
fn every_byte_at_every_place_is_the_models() {
    let mut comparison = Comparison::default();
    let arguments = opening(&mut comparison, 1);
    let line = b"10,2024-02-29 23:59:59-23:59,10.25";
    for place in 0..line.len() {
        for byte in 0..=255 {
            let mut changed = line.to_vec();
            changed[place] = byte;
            given(&mut comparison, &arguments, &changed);
            let mut longer = line.to_vec();
            longer.insert(place, byte);
            given(&mut comparison, &arguments, &longer);
        }
        given(&mut comparison, &arguments, &line[..place]);
        given(&mut comparison, &arguments, &line[place..]);
        let shorter = [&line[..place], &line[place + 1..]].concat();
        given(&mut comparison, &arguments, &shorter);
    }
}

/// The numbers of a feed of a line in the order in which they are checked, of the signals' refusals one.
const ORDER: [u64; 9] = [8, 9, 10, 16, 17, 11, 2, 13, 14];

/// Arguments with the faults of some of those numbers, for a book with one bar, of the second day of 1970.
fn faulty(arguments: &[Arguments; 2], has: impl Fn(u64) -> bool) -> Arguments {
    let mut copy = arguments[usize::from(has(14))].clone();
    copy.line = format!(
        "{},1970-01-{} 00:00:{}+00:00,{}",
        if has(11) { "2147483648" } else { "1" },
        if has(13) { "02" } else { "03" },
        if has(16) { "60" } else { "00" },
        if has(17) { "1234567890123456" } else { "1" },
    )
    .into_bytes();
    if has(2) {
        copy.text = b"a".to_vec();
    }
    if has(8) {
        copy.table.pop();
    }
    if has(9) {
        copy.table[..4].fill(0xff);
    }
    if has(10) {
        copy.book[30] = 1;
    }
    copy
}

#[test]
fn of_all_faults_the_first_is_told() {
    let mut comparison = Comparison::default();
    let arguments = [2, 1].map(|bars| {
        let mut fresh = opening(&mut comparison, bars);
        fresh.line = b"1,1970-01-02 00:00:00+00:00,1".to_vec();
        comparison.run(&FEED_LINE, &fresh).1
    });
    for set in 0u32..1 << ORDER.len() {
        let faults = (0..ORDER.len()).filter(|place| set >> place & 1 == 1);
        let faults: Vec<u64> = faults.map(|place| ORDER[place]).collect();
        let faulty = faulty(&arguments, |number| faults.contains(&number));
        let (number, after) = comparison.run(&FEED_LINE, &faulty);
        assert_eq!(number, *faults.first().unwrap_or(&0), "{faults:?}");
        assert!(number == 0 || after == faulty, "{faults:?}");
    }
}
