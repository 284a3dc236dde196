//! The same-day rule by the trading day of document 02, W3, on both sides: bars at both sides of the opening of a day, of
//! 21:00 and of midnight, for each way in which a position is left, by offsets that differ, and near 1970.

use super::{Arguments, COMPILE, Comparison, FEED, FRESH};
use inputs::{LAST_INSTANT, LAST_OFFSET};
use position_book::raw::{self, ROW_BUFFER, TABLE_LENGTH, book_length};

const SECOND: i64 = 1_000_000;
const MINUTE: i64 = 60 * SECOND;
const DAY: i64 = 86_400 * SECOND;
/// 21:00.
const NINE: i64 = 21 * 60 * MINUTE;
/// How many bars a book has room for.
const BARS: usize = 3;

/// Each side is opened and left by a value of its own.
const EVENTS: &str = "\
O|LO|lo
A|k_k_k_lo_v_v_0
O|SO|so
A|k_k_k_so_v_v_0
X|LE|le
A|k_k_k_le_v_v_0
X|SE|se
A|k_k_k_se_v_v_0
";

/// What would leave a position: an exit, the stop, the timeout, or an opposite opening that the interval forbids.
#[derive(Clone, Copy, Debug, PartialEq)]
enum Way {
    Exit,
    Stop,
    Timeout,
    Reversal,
}

const WAYS: [Way; 4] = [Way::Exit, Way::Stop, Way::Timeout, Way::Reversal];

/// A time on the wall clock in microseconds, and an offset in seconds.
#[derive(Clone, Copy, Debug)]
struct Moment {
    local: i64,
    offset: i64,
}

/// A position that is opened, and a bar that would leave it.
#[derive(Clone, Copy, Debug)]
struct Play {
    way: Way,
    long: bool,
    opened: Moment,
    left: Moment,
}

/// When a position is opened and when it would be left, in microseconds from the opening of a trading day; and whether it
/// is. In the last four the wall clock goes back, by a lesser offset.
const MOMENTS: [(i64, i64, bool); 13] = [
    (-1, 0, true),
    (-1, 1, true),
    (-2, -1, false),
    (0, 1, false),
    (0, DAY - 1, false),
    (0, DAY, true),
    (-1, DAY - 1, true),
    (-DAY, -1, false),
    (-DAY - 1, -1, true),
    (0, -1, true),
    (DAY - 1, 0, false),
    (-1, -DAY, false),
    (0, -DAY, true),
];

/// The same by the hour, in microseconds from a midnight, behind the evening.
const AT_NINE_AND_MIDNIGHT: [(i64, i64, i64, bool); 16] = [
    (0, NINE - 1, NINE, false),
    (0, NINE, DAY - 1, false),
    (0, NINE, DAY, true),
    (0, DAY - 1, DAY, true),
    (0, DAY, DAY + NINE, false),
    (180, NINE - 1, NINE, true),
    (180, 0, NINE - 1, false),
    (180, 0, NINE, true),
    (180, NINE, DAY - 1, false),
    (180, NINE, DAY, false),
    (180, DAY - 1, DAY, false),
    (180, DAY, DAY + 1, false),
    (180, DAY, DAY + NINE - 1, false),
    (180, DAY, DAY + NINE, true),
    (180, NINE, DAY + NINE - 1, false),
    (180, NINE, DAY + NINE, true),
];

const EVENINGS: [i64; 6] = [0, 1, 60, 180, 720, 1_439];

/// Trading days by their numbers: those around 1970, the first of which open before it, one of 2026, the last two.
const DAYS: [i64; 6] = [-1, 0, 1, 20_738, 47_481, 47_482];

/// The offsets of the bar that opens and of the one that would leave.
const OFFSETS: [[i64; 2]; 9] = [
    [0, 0],
    [28_800, 28_800],
    [-18_000, -18_000],
    [LAST_OFFSET, LAST_OFFSET],
    [-LAST_OFFSET, -LAST_OFFSET],
    [0, -1],
    [28_800, -18_000],
    [-18_000, 28_800],
    [LAST_OFFSET, -LAST_OFFSET],
];

impl Moment {
    fn instant(self) -> i64 {
        self.local - self.offset * SECOND
    }
}

impl Play {
    /// Each way on each side, where bars can have these times, one before the first among them.
    fn all(opened: Moment, left: Moment) -> impl Iterator<Item = Play> {
        let [first, second] = [opened.instant(), left.instant()];
        let possible = 0 < first && first < second && second <= LAST_INSTANT;
        let sides = [false, true].into_iter().filter(move |_| possible);
        sides.flat_map(move |long| {
            WAYS.map(|way| Play {
                way,
                long,
                opened,
                left,
            })
        })
    }
}

/// The table of t0 and an evening and a fresh book, for a way: by that of a reversal the interval is the longest.
fn fresh(comparison: &mut Comparison, way: Way, t0: bool, evening: i64) -> Arguments {
    let interval = if way == Way::Reversal {
        4_102_444_800u32
    } else {
        0
    };
    let t0 = u8::from(t0);
    let sheet = format!("P|n|s|{interval}|9|100|{t0}|{evening}\n{EVENTS}");
    let arguments = Arguments::compiling(sheet.as_bytes(), vec![0; TABLE_LENGTH]);
    let (number, mut arguments) = comparison.run(&COMPILE, &arguments);
    assert_eq!(number, 0, "{sheet}");
    arguments.book = vec![0; book_length(BARS)];
    comparison.run(&FRESH, &arguments).1
}

/// Feeds a bar whose signals say a value.
fn feed(
    comparison: &mut Comparison,
    mut arguments: Arguments,
    (id, moment): (i64, Moment),
    (price, value): (f64, &str),
) -> Arguments {
    (arguments.id, arguments.price) = (id, price.to_bits());
    (arguments.instant, arguments.offset) = (moment.instant(), moment.offset);
    arguments.text = format!("k_k_k|{value}_v_v_0\n").into_bytes();
    let (number, after) = comparison.run(&FEED, &arguments);
    assert_eq!(number, 0, "{id}, {moment:?}");
    after
}

/// How many records a book has, and of the last what it is described by: an event (1), the stop (2) or the timeout (3).
fn records(book: &[u8]) -> (usize, u8) {
    let count = book[4] as usize;
    (count, book[96 + 32 * BARS + 32 * count - 6])
}

/// Whether a play leaves its position, by fresh books of its way.
fn is_left(comparison: &mut Comparison, fresh: &[Arguments; 4], play: Play) -> bool {
    let (own, other, exit, loss) = if play.long {
        ("lo", "so", "le", 98.0)
    } else {
        ("so", "lo", "se", 102.0)
    };
    let mut arguments = fresh[play.way as usize].clone();
    if play.way == Way::Reversal {
        let mut before = play.opened;
        before.local -= 1;
        arguments = feed(comparison, arguments, (1, before), (100.0, other));
    }
    arguments = feed(comparison, arguments, (1, play.opened), (100.0, own));
    let (count, _) = records(&arguments.book);
    let (id, price, value, why) = match play.way {
        Way::Exit => (2, 100.0, exit, 1),
        Way::Stop => (2, loss, "none", 2),
        Way::Timeout => (11, 100.0, "none", 3),
        Way::Reversal => (2, 100.0, other, 1),
    };
    let after = feed(comparison, arguments, (id, play.left), (price, value));
    let left = after.book[24] == 1;
    let expected = if left { (count + 1, why) } else { (count, 1) };
    assert_eq!(records(&after.book), expected, "{play:?}");
    left
}

/// Plays all ways on both sides between two times where bars can have them, and counts them.
fn play(
    comparison: &mut Comparison,
    fresh: &[Arguments; 4],
    [opened, left]: [Moment; 2],
    expected: bool,
) -> usize {
    let mut played = 0;
    for play in Play::all(opened, left) {
        assert_eq!(is_left(comparison, fresh, play), expected, "{play:?}");
        played += 1;
    }
    played
}

/// Times from the opening of a trading day, by two offsets.
fn from_opening(day: i64, evening: i64, times: [i64; 2], offsets: [i64; 2]) -> [Moment; 2] {
    let opening = day * DAY - evening * MINUTE;
    [0, 1].map(|n| Moment {
        local: opening + times[n],
        offset: offsets[n],
    })
}

#[test]
fn a_position_is_left_on_another_trading_day() {
    let mut comparison = Comparison::default();
    let mut played = [0; MOMENTS.len()];
    for evening in EVENINGS {
        let fresh = WAYS.map(|way| fresh(&mut comparison, way, false, evening));
        for (n, (opened, left, expected)) in MOMENTS.into_iter().enumerate() {
            for (day, offsets) in DAYS.iter().flat_map(|day| OFFSETS.map(|pair| (*day, pair))) {
                let moments = from_opening(day, evening, [opened, left], offsets);
                played[n] += play(&mut comparison, &fresh, moments, expected);
            }
        }
    }
    assert!(played.iter().all(|count| *count > 100), "{played:?}");
}

#[test]
fn nine_in_the_evening_and_midnight_count_as_the_evening_says() {
    let mut comparison = Comparison::default();
    for (evening, opened, left, expected) in AT_NINE_AND_MIDNIGHT {
        let fresh = WAYS.map(|way| fresh(&mut comparison, way, false, evening));
        let mut played = 0;
        for (day, offset) in [(-1, -LAST_OFFSET), (0, -1), (1, 0), (20_738, 28_800)] {
            let times = [opened + day * DAY, left + day * DAY];
            let moments = times.map(|local| Moment { local, offset });
            played += play(&mut comparison, &fresh, moments, expected);
        }
        assert!(played >= 8 * 3, "{evening}, {opened}, {left}: {played}");
    }
}

#[test]
fn with_t0_no_day_is_looked_at() {
    let mut comparison = Comparison::default();
    for evening in EVENINGS {
        let fresh = WAYS.map(|way| fresh(&mut comparison, way, true, evening));
        for (opened, left, _) in MOMENTS {
            let moments = from_opening(20_738, evening, [opened, left], [LAST_OFFSET, 0]);
            play(&mut comparison, &fresh, moments, true);
        }
    }
}

/// Rows are the same by a table with another evening, and their times are those of the wall clock.
#[test]
fn printed_times_do_not_move() {
    let mut comparison = Comparison::default();
    let [opened, left] = [NINE - 1, NINE].map(|local| Moment { local, offset: 0 });
    let mut arguments = fresh(&mut comparison, Way::Exit, false, 180);
    arguments = feed(&mut comparison, arguments, (1, opened), (100.0, "lo"));
    arguments = feed(&mut comparison, arguments, (2, left), (100.0, "le"));
    for evening in EVENINGS {
        let table = fresh(&mut comparison, Way::Exit, false, evening).table;
        let pair = raw::pair_row(&table, &arguments.book, 0, &mut [0; ROW_BUFFER]);
        assert_eq!((pair.number, pair.opened, pair.closed), (0, NINE - 1, NINE));
        let holds = [0, 1].map(|index| raw::hold_row(&table, &arguments.book, index));
        assert_eq!(holds.map(|hold| hold.local), [NINE - 1, NINE]);
    }
}
