//! Instants and local times: types of their own, so that neither is taken for the other.

use std::fmt;

/// The microseconds of a second and of a day.
const SECOND: i64 = 1_000_000;
const DAY: i64 = 86_400 * SECOND;

/// Microseconds from 1970 UTC.
#[derive(Clone, Copy, Debug, PartialEq, Eq, PartialOrd, Ord, Hash)]
pub struct Instant(pub i64);

/// Microseconds from 1970 of the wall clock. Only an instant with its offset becomes one; the rows of a book have them.
#[derive(Clone, Copy, Debug, PartialEq, Eq, PartialOrd, Ord, Hash)]
pub struct LocalTime(i64);

impl Instant {
    /// The wall clock's time at this instant, for an offset in seconds; where it passes an i64, the nearest that fits.
    ///
    /// ```
    /// use position_book::Instant;
    /// let local = Instant(1_788_332_400_000_000).local(8 * 3_600);
    /// assert_eq!((local.micros(), local.day()), (1_788_361_200_000_000, 20_698));
    /// assert_eq!(local.to_string(), "2026-09-02 15:00:00");
    /// ```
    pub fn local(self, offset: i64) -> LocalTime {
        let exact = i128::from(self.0) + i128::from(offset) * i128::from(SECOND);
        LocalTime(exact.clamp(i64::MIN.into(), i64::MAX.into()) as i64)
    }
}

impl LocalTime {
    /// The local time that a row has.
    pub(crate) fn of_row(micros: i64) -> LocalTime {
        LocalTime(micros)
    }

    /// The microseconds.
    pub fn micros(self) -> i64 {
        self.0
    }

    /// The day, counted from 1970, rounded down before 1970 too.
    pub fn day(self) -> i64 {
        self.0.div_euclid(DAY)
    }
}

impl fmt::Display for LocalTime {
    /// Writes it as the exchange's file does, `YYYY-MM-DD HH:MM:SS`, to the second.
    fn fmt(&self, f: &mut fmt::Formatter<'_>) -> fmt::Result {
        let (year, month, day) = date(self.day());
        let seconds = self.0.rem_euclid(DAY) / SECOND;
        let (hour, minute, second) = (seconds / 3_600, seconds / 60 % 60, seconds % 60);
        write!(f, "{year:04}-{month:02}-{day:02} ")?;
        write!(f, "{hour:02}:{minute:02}:{second:02}")
    }
}

/// The year, month and day of a day counted from 1970. Inside, years begin with March, so that a leap day is the last
/// of its year, and rounds of 400 years are counted from March of the year 0.
fn date(day: i64) -> (i64, i64, i64) {
    const ROUND: i64 = 146_097;
    let day = day + 719_468;
    let (rounds, day) = (day.div_euclid(ROUND), day.rem_euclid(ROUND));
    let year = (day - day / 1_460 + day / 36_524 - day / 146_096) / 365;
    let day = day - (365 * year + year / 4 - year / 100);
    let month = (5 * day + 2) / 153;
    let day = day - (153 * month + 2) / 5 + 1;
    let year = 400 * rounds + year;
    if month < 10 {
        (year, month + 3, day)
    } else {
        (year + 1, month - 9, day)
    }
}

#[cfg(test)]
mod tests {
    use super::*;

    #[test]
    fn each_day_follows_the_one_before() {
        let length = |year: i64, month| match month {
            4 | 6 | 9 | 11 => 30,
            2 if year % 4 == 0 && (year % 100 != 0 || year % 400 == 0) => 29,
            2 => 28,
            _ => 31,
        };
        let (mut year, mut month, mut day) = (1600, 1, 1);
        for number in -135_140.. {
            assert_eq!(date(number), (year, month, day));
            day += 1;
            if day > length(year, month) {
                (month, day) = (month + 1, 1);
            }
            if month > 12 {
                (year, month) = (year + 1, 1);
            }
            if year > 2400 {
                break;
            }
        }
        assert_eq!(date(0), (1970, 1, 1));
    }

    #[test]
    fn a_local_time_is_shown_to_the_second() {
        let shown = |micros, offset| Instant(micros).local(offset).to_string();
        assert_eq!(shown(0, 0), "1970-01-01 00:00:00");
        assert_eq!(shown(0, -1), "1969-12-31 23:59:59");
        assert_eq!(shown(-1, 0), "1969-12-31 23:59:59");
        assert_eq!(shown(951_782_400_000_000, 86_399), "2000-02-29 23:59:59");
        assert_eq!(shown(4_102_444_799_999_999, 86_399), "2100-01-01 23:59:58");
    }

    #[test]
    fn no_instant_and_no_offset_are_too_large() {
        for micros in [i64::MIN, -1, 0, i64::MAX] {
            for offset in [i64::MIN, -1, 0, i64::MAX] {
                let local = Instant(micros).local(offset);
                assert!(local.day() <= local.micros() / DAY && !local.to_string().is_empty());
            }
        }
        assert_eq!(Instant(i64::MIN).local(i64::MAX).micros(), i64::MAX);
        assert_eq!(Instant(i64::MAX).local(i64::MIN).micros(), i64::MIN);
        assert_eq!(Instant(i64::MAX).local(-1).micros(), i64::MAX - SECOND);
    }

    #[test]
    fn days_are_rounded_down() {
        let days = [-DAY - 1, -DAY, -1, 0, DAY - 1, DAY].map(|micros| LocalTime(micros).day());
        assert_eq!(days, [-2, -1, -1, 0, 0, 1]);
    }
}
