//! Why a call was refused: the documents' numbers as an enum.

use std::error::Error;
use std::fmt;

/// Makes the enum of refusals of their numbers, names and meanings.
macro_rules! refusals {
    ($($number:literal $name:ident: $meaning:literal,)*) => {
        /// Why a call was refused. A refusal changed no byte.
        #[derive(Clone, Copy, Debug, PartialEq, Eq, Hash)]
        #[non_exhaustive]
        pub enum Refusal {
            $(#[doc = concat!("Refused with ", $number, ": ", $meaning, ".")] $name,)*
            /// Refused with a number that this host does not know: the library is a newer one.
            Unknown(u32),
        }

        impl Refusal {
            /// The refusal with a number, where this host knows one.
            fn known(number: u32) -> Option<Refusal> {
                match number {
                    $($number => Some(Refusal::$name),)*
                    _ => None,
                }
            }

            /// Its number, and what it means.
            fn told(self) -> (u32, &'static str) {
                match self {
                    $(Refusal::$name => ($number, $meaning),)*
                    Refusal::Unknown(number) => (number, "a newer library's number, which this host does not know"),
                }
            }
        }
    };
}

refusals! {
    1 NotUtf8: "the text is not UTF-8",
    2 Malformed: "a line lacks its LF, or has a wrong tag, place or field count",
    3 WrongNumber: "a numeric field is malformed or out of range",
    4 UnknownOperate: "the operate is unknown",
    5 WrongParts: "a signal does not have 7 parts",
    6 WrongScore: "a score is unreadable or outside 0..1,000",
    7 PastLimit: "a text, a name or a count passes its limit",
    8 WrongLength: "a buffer does not have the length that the call needs",
    9 NotTable: "the bytes are not a table of this layout",
    10 NotBook: "the bytes are not a book of the table",
    11 BarOutOfRange: "a field of the bar is outside its range",
    12 KeyTwice: "a key stands twice among the bar's signals",
    13 NotLater: "the bar is not later than the one before it",
    14 Full: "the book has no room for another bar",
    15 NoSuchRow: "there is no row with this index",
    16 WrongLine: "a line of the exchange's file departs from its form, or names no real day or time",
    17 LongPrice: "a price has more than 15 digits, or more than six after the point",
    18 WrongLots: "lots are outside 1..1,000",
}

impl Refusal {
    /// The number that the documents give it, 1 to 18, or the one that this host does not know.
    ///
    /// ```
    /// use position_book::{Refusal, Table};
    /// let why = Table::compile(b"P|soy|M1|0|5|100|2\n").unwrap_err();
    /// assert_eq!((why, why.number()), (Refusal::WrongNumber, 3));
    /// ```
    pub fn number(self) -> u32 {
        self.told().0
    }

    /// The refusal with the number; none for 0 alone, which says that a call was done.
    ///
    /// ```
    /// use position_book::Refusal;
    /// assert_eq!(Refusal::from_number(0), None);
    /// assert_eq!(Refusal::from_number(13), Some(Refusal::NotLater));
    /// assert_eq!(Refusal::from_number(999), Some(Refusal::Unknown(999)));
    /// ```
    pub fn from_number(number: u32) -> Option<Refusal> {
        let refusal = Refusal::known(number).unwrap_or(Refusal::Unknown(number));
        (number != 0).then_some(refusal)
    }

    /// What it means, in words.
    pub fn meaning(self) -> &'static str {
        self.told().1
    }
}

impl fmt::Display for Refusal {
    fn fmt(&self, f: &mut fmt::Formatter<'_>) -> fmt::Result {
        write!(f, "{} ({})", self.meaning(), self.number())
    }
}

impl Error for Refusal {}

/// What an answered number says: done, or why not. A number that this host does not know is no success.
pub(crate) fn done(number: u32) -> Result<(), Refusal> {
    match Refusal::from_number(number) {
        Some(why) => Err(why),
        None => Ok(()),
    }
}

#[cfg(test)]
mod tests {
    use super::*;

    #[test]
    fn each_number_is_that_of_its_refusal() {
        for number in (1..=99).chain([u32::MAX]) {
            assert_eq!(Refusal::from_number(number).unwrap().number(), number);
        }
        assert_eq!(Refusal::from_number(0), None);
        assert_eq!(Refusal::from_number(18), Some(Refusal::WrongLots));
    }

    #[test]
    fn the_known_numbers_have_no_gap() {
        let last = (1..).map_while(Refusal::known).last().unwrap();
        assert!((last.number() + 1..=99).all(|number| Refusal::known(number).is_none()));
    }

    #[test]
    fn an_unknown_number_is_an_error() {
        assert_eq!(done(0), Ok(()));
        assert_eq!(done(16), Err(Refusal::WrongLine));
        assert_eq!(done(999), Err(Refusal::Unknown(999)));
        let shown = Refusal::Unknown(999).to_string();
        assert!(shown.ends_with("which this host does not know (999)"));
    }
}
