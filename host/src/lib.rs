//! A proved position book for the cooperative's programs.
//!
//! A sheet is compiled to a [`Table`]; a [`Book`] is fed bars with their signals, as numbers or as lines of the
//! exchange's comma file, says after each bar whether the member is long, flat or short and what decided it, keeps every
//! trade pair and every hold's yield, and can be saved and restored. The work is done by the static library
//! `position_book`, every function of which is proved to meet its contract; this crate lends it slices and turns its
//! numbers into Rust's results. [`raw`] has the calls as they are. They need room on the stack: [`raw::COMPILE_STACK`]
//! bytes to compile a sheet, [`raw::CALL_STACK`] for all else.
//!
//! ```
//! use position_book::{Bar, Book, Instant, Pos, Refusal, Table, signal_lines};
//!
//! let table = Table::compile("P|soy|M1|0|5|100|0\nO|LO|go\nA|d1_u_w_up_任意_任意_10\n")?;
//! let mut book = Book::fresh(900)?;
//! let signals = signal_lines([("d1_u_w", "up_a_b_10")])?;
//! let decision = book.feed(&table, Bar { id: 1, instant: Instant(0), offset: 0, price: 100.0 }, &signals)?;
//! assert_eq!((decision.pos, decision.changed), (Pos::Long, true));
//!
//! let next = book.feed_line(&table, "7,1970-01-02 00:00:00+00:00,125", "")?;
//! assert_eq!(next.pos, Pos::Flat);
//! let pair = book.pairs(&table)?.next().unwrap();
//! assert_eq!((pair.sequence.as_str(), pair.bp), ("go@is_match -> 平多@5K超时", Some(2500.0)));
//!
//! let image = book.save(&table)?;
//! let mut again = Book::from_image(&table, &image)?;
//! assert_eq!(again.holds(&table)?.map(|hold| hold.price).collect::<Vec<_>>(), [100.0, 125.0]);
//! assert_eq!(again.feed_line(&table, "8,1970-01-02 00:00:00+00:00,130.5", ""), Err(Refusal::NotLater));
//! # Ok::<(), Refusal>(())
//! ```

mod book;
pub mod raw;
mod refusal;
mod rows;
mod signal;
mod table;
mod time;

pub use book::{Bar, Book, Cause, Decision, MOST_BARS, Pos};
pub use refusal::Refusal;
pub use rows::{Hold, Holds, Pair, Pairs, Side};
pub use signal::{Operate, Signal, signal_lines};
pub use table::Table;
pub use time::{Instant, LocalTime};
