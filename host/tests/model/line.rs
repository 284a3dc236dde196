//! Document 02, W1: the exchange's comma lines, `id,YYYY-MM-DD HH:MM:SS+HH:MM,price`.

use super::book::feed_bar;
use super::machine::{Bar, SECOND, bar_of};
use super::{Answer, require};
use position_book::raw::FeedAnswer;

const ID_LIMIT: usize = 10;
const DIGITS_LIMIT: usize = 15;
const DECIMALS_LIMIT: usize = 6;

/// A line of the form: the wall clock in seconds from 1970-01-01, the offset in seconds, the price's digits before and
/// behind its point.
struct Line<'a> {
    id: i64,
    wall: i64,
    offset: i64,
    whole: &'a str,
    decimals: &'a str,
}

impl Line<'_> {
    /// The price's digits divided by a power of ten: Rust reads a decimal as the double nearest to it, rounding once.
    fn price(&self) -> f64 {
        let decimal = format!("{}{}e-{}", self.whole, self.decimals, self.decimals.len());
        decimal.parse().unwrap()
    }

    fn has_more_digits(&self) -> bool {
        let digits = self.whole.len() + self.decimals.len();
        digits > DIGITS_LIMIT || self.decimals.len() > DECIMALS_LIMIT
    }
}

/// What is left of a line to be read.
struct Rest<'a>(&'a [u8]);

impl<'a> Rest<'a> {
    fn byte(&mut self) -> Option<u8> {
        let (byte, rest) = self.0.split_first()?;
        self.0 = rest;
        Some(*byte)
    }

    /// The next byte, which must be this one.
    fn mark(&mut self, mark: u8) -> Option<()> {
        (self.byte()? == mark).then_some(())
    }

    /// All digits up to the next byte that is none; there must be one.
    fn digits(&mut self) -> Option<&'a str> {
        let count = self.0.iter().take_while(|byte| byte.is_ascii_digit());
        let (digits, rest) = self.0.split_at(count.count());
        self.0 = rest;
        std::str::from_utf8(digits)
            .ok()
            .filter(|text| !text.is_empty())
    }

    /// A number of exactly so many digits.
    fn number(&mut self, digits: usize) -> Option<i64> {
        let text = self.digits().filter(|text| text.len() == digits)?;
        text.parse().ok()
    }

    /// A number of two digits, below a limit.
    fn below(&mut self, limit: i64) -> Option<i64> {
        self.number(2).filter(|number| *number < limit)
    }

    fn id(&mut self) -> Option<i64> {
        let text = self.digits().filter(|text| text.len() <= ID_LIMIT)?;
        text.parse().ok()
    }

    /// A real day, by its number from 1970-01-01 on.
    fn day(&mut self) -> Option<i64> {
        let year = self.number(4)?;
        self.mark(b'-')?;
        let month = self.number(2)?;
        self.mark(b'-')?;
        day_number(year, month, self.number(2)?)
    }

    /// Hours and minutes, in seconds.
    fn minutes(&mut self) -> Option<i64> {
        let hours = self.below(24)?;
        self.mark(b':')?;
        Some(hours * 3_600 + self.below(60)? * 60)
    }

    /// The time of the day, in seconds.
    fn time(&mut self) -> Option<i64> {
        let minutes = self.minutes()?;
        self.mark(b':')?;
        Some(minutes + self.below(60)?)
    }

    fn offset(&mut self) -> Option<i64> {
        match self.byte()? {
            b'+' => self.minutes(),
            b'-' => self.minutes().map(|seconds| -seconds),
            _ => None,
        }
    }

    /// The digits behind the price's point; none where there is no point.
    fn decimals(&mut self) -> Option<&'a str> {
        if self.0.is_empty() {
            return Some("");
        }
        self.mark(b'.')?;
        self.digits()
    }
}

/// Every fourth year is a leap year; of those that end a century, every fourth.
fn is_leap(year: i64) -> bool {
    if year % 100 == 0 {
        year % 400 == 0
    } else {
        year % 4 == 0
    }
}

/// How many days a month has; 0 where there is no such month.
pub fn days_in(year: i64, month: i64) -> i64 {
    match month {
        2 if is_leap(year) => 29,
        2 => 28,
        4 | 6 | 9 | 11 => 30,
        1..=12 => 31,
        _ => 0,
    }
}

/// The number of a real day of the years 1970 to 2099: the days of all months before its own, and those before it.
fn day_number(year: i64, month: i64, day: i64) -> Option<i64> {
    let real = (1970..=2099).contains(&year) && (1..=days_in(year, month)).contains(&day);
    let years = (1970..year).flat_map(|year| (1..=12).map(move |month| days_in(year, month)));
    let months = (1..month).map(|month| days_in(year, month));
    real.then(|| years.chain(months).sum::<i64>() + day - 1)
}

/// Reads a line of the form that names a real day and time; gives none of any other.
fn read(line: &[u8]) -> Option<Line<'_>> {
    let mut rest = Rest(line);
    let id = rest.id()?;
    rest.mark(b',')?;
    let day = rest.day()?;
    rest.mark(b' ')?;
    let wall = day * 86_400 + rest.time()?;
    let offset = rest.offset()?;
    rest.mark(b',')?;
    let whole = rest.digits()?;
    let decimals = rest.decimals()?;
    rest.0.is_empty().then_some(Line {
        id,
        wall,
        offset,
        whole,
        decimals,
    })
}

/// The bar that a line says: 16, then 17, then its ranges (11).
pub fn read_line(line: &[u8]) -> Answer<Bar> {
    let line = read(line).ok_or(16u32)?;
    require(!line.has_more_digits(), 17)?;
    let instant = (line.wall - line.offset) * SECOND;
    bar_of(line.id, instant, line.offset, line.price())
}

/// The call `feed_line`.
pub fn feed_line(table: &[u8], book: &mut [u8], line: &[u8], signals: &[u8]) -> FeedAnswer {
    feed_bar(table, book, read_line(line), signals)
}
