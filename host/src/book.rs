//! A book: bars go in, positions come out; it can be saved and restored.

use crate::raw;
use crate::refusal::{Refusal, done};
use crate::rows::{Holds, Pairs};
use crate::table::Table;
use crate::time::Instant;

/// The most bars that a book can have room for.
pub const MOST_BARS: usize = 1_000_000;

/// A bar of the market. What is outside its range is refused.
#[derive(Clone, Copy, Debug, PartialEq)]
pub struct Bar {
    /// 0 to 2,147,483,647.
    pub id: i64,
    /// 1970 to the end of 2099.
    pub instant: Instant,
    /// Seconds that the wall clock is ahead of UTC, -86,399 to 86,399.
    pub offset: i64,
    /// A finite double.
    pub price: f64,
}

/// Long, flat or short.
#[derive(Clone, Copy, Debug, PartialEq, Eq, Hash)]
pub enum Pos {
    Short,
    Flat,
    Long,
}

impl Pos {
    /// The position of -1, 0 or 1.
    pub(crate) fn from_sign(sign: i32) -> Pos {
        match sign {
            0 => Pos::Flat,
            1 => Pos::Long,
            _ => Pos::Short,
        }
    }
}

/// What decided a bar.
#[derive(Clone, Copy, Debug, PartialEq, Eq, Hash)]
pub enum Cause {
    /// An event, by its index in the sheet; `Table::event_name` tells its name.
    Event(usize),
    Stop,
    Timeout,
}

/// What a bar did.
#[derive(Clone, Copy, Debug, PartialEq, Eq, Hash)]
pub struct Decision {
    /// The position after the bar.
    pub pos: Pos,
    /// Whether the bar changed it.
    pub changed: bool,
    /// What decided the bar; none where no event was chosen and nothing was closed.
    pub cause: Option<Cause>,
}

impl Decision {
    /// What a feed answered.
    fn of(answer: raw::FeedAnswer) -> Result<Decision, Refusal> {
        done(answer.number)?;
        Ok(Decision {
            pos: Pos::from_sign(answer.pos),
            changed: answer.changed == 1,
            cause: match answer.decision {
                0 => None,
                1 => Some(Cause::Event(answer.event as usize)),
                2 => Some(Cause::Stop),
                _ => Some(Cause::Timeout),
            },
        })
    }
}

/// The book of one position: what it holds after the bars that it was fed.
#[derive(Clone, Debug, PartialEq, Eq)]
pub struct Book {
    bytes: Vec<u8>,
}

impl Book {
    /// A book with no bars, and room for 1 to 1,000,000 of them.
    ///
    /// ```
    /// use position_book::{Book, Pos, Refusal};
    /// let book = Book::fresh(900)?;
    /// assert_eq!((book.pos(), book.len(), book.capacity()), (Pos::Flat, 0, 900));
    /// assert_eq!(Book::fresh(0), Err(Refusal::WrongLength));
    /// # Ok::<(), Refusal>(())
    /// ```
    pub fn fresh(capacity: usize) -> Result<Book, Refusal> {
        if capacity > MOST_BARS {
            return Err(Refusal::WrongLength);
        }
        let mut bytes = vec![0; raw::book_length(capacity)];
        done(raw::fresh(&mut bytes))?;
        Ok(Book { bytes })
    }

    /// The book of an image that `save` wrote, as large as the image says.
    pub fn from_image(table: &Table, image: &[u8]) -> Result<Book, Refusal> {
        let capacity = image.len().saturating_sub(raw::book_length(0)) / 64;
        let mut book = Book::fresh(capacity)?;
        book.restore(table, image)?;
        Ok(book)
    }

    /// Feeds a bar with its signals, `key|value` lines (`signal_lines` makes them of a map). A refused bar leaves the
    /// book as it was.
    ///
    /// ```
    /// use position_book::{Bar, Book, Cause, Instant, Pos, Refusal, Table};
    /// let table = Table::compile("P|soy|M1|0|5|100|0\nO|LO|go\nA|d1_u_w_up_任意_任意_10\n")?;
    /// let mut book = Book::fresh(10)?;
    /// let bar = Bar { id: 1, instant: Instant(0), offset: 0, price: 100.0 };
    /// let decision = book.feed(&table, bar, "d1_u_w|up_a_b_10\n")?;
    /// assert_eq!((decision.pos, decision.changed), (Pos::Long, true));
    /// assert_eq!(decision.cause, Some(Cause::Event(0)));
    /// assert_eq!(book.feed(&table, bar, ""), Err(Refusal::NotLater));
    /// # Ok::<(), Refusal>(())
    /// ```
    pub fn feed(
        &mut self,
        table: &Table,
        bar: Bar,
        signals: impl AsRef<[u8]>,
    ) -> Result<Decision, Refusal> {
        Decision::of(raw::feed(
            table.as_bytes(),
            &mut self.bytes,
            bar.id,
            bar.instant.0,
            bar.offset,
            bar.price,
            signals.as_ref(),
        ))
    }

    /// Feeds the bar of one line of the exchange's comma file, `id,YYYY-MM-DD HH:MM:SS+HH:MM,price`, without its LF,
    /// with its signals as `feed` takes them. A refused line leaves the book as it was.
    ///
    /// ```
    /// use position_book::{Book, Pos, Refusal, Table};
    /// let table = Table::compile("P|soy|M1|0|5|100|0\nO|LO|go\nA|d1_u_w_up_任意_任意_10\n")?;
    /// let mut book = Book::fresh(10)?;
    /// let line = "7,2026-09-02 15:00:00+08:00,3120.5";
    /// assert_eq!(book.feed_line(&table, line, "d1_u_w|up_a_b_10\n")?.pos, Pos::Long);
    /// let hold = book.holds(&table)?.next().unwrap();
    /// assert_eq!((hold.local.to_string().as_str(), hold.price), ("2026-09-02 15:00:00", 3120.5));
    /// let no_day = "8,2027-02-29 15:00:00+08:00,3120.5";
    /// assert_eq!(book.feed_line(&table, no_day, ""), Err(Refusal::WrongLine));
    /// # Ok::<(), Refusal>(())
    /// ```
    pub fn feed_line(
        &mut self,
        table: &Table,
        line: impl AsRef<[u8]>,
        signals: impl AsRef<[u8]>,
    ) -> Result<Decision, Refusal> {
        Decision::of(raw::feed_line(
            table.as_bytes(),
            &mut self.bytes,
            line.as_ref(),
            signals.as_ref(),
        ))
    }

    /// An image of the book, to be stored.
    ///
    /// ```
    /// use position_book::{Book, Refusal, Table};
    /// let table = Table::compile("P|soy|M1|0|5|100|0\n")?;
    /// let book = Book::fresh(10)?;
    /// let image = book.save(&table)?;
    /// assert_eq!(Book::from_image(&table, &image)?, book);
    /// # Ok::<(), Refusal>(())
    /// ```
    pub fn save(&self, table: &Table) -> Result<Vec<u8>, Refusal> {
        let mut image = vec![0; self.bytes.len()];
        done(raw::save(table.as_bytes(), &self.bytes, &mut image))?;
        Ok(image)
    }

    /// Makes the book again what it was when the image was saved. An image of another size, or one that is no book of the table, is
    /// refused and leaves the book as it was.
    pub fn restore(&mut self, table: &Table, image: &[u8]) -> Result<(), Refusal> {
        done(raw::restore(table.as_bytes(), &mut self.bytes, image))
    }

    /// The trade pairs, in their order.
    pub fn pairs<'a>(&'a self, table: &'a Table) -> Result<Pairs<'a>, Refusal> {
        Pairs::new(table.as_bytes(), &self.bytes)
    }

    /// The holds, one a bar, in their order.
    pub fn holds<'a>(&'a self, table: &'a Table) -> Result<Holds<'a>, Refusal> {
        Holds::new(table.as_bytes(), &self.bytes)
    }

    /// How many trade pairs there are.
    pub fn count_pairs(&self, table: &Table) -> Result<usize, Refusal> {
        let a = raw::counts(table.as_bytes(), &self.bytes);
        done(a.number)?;
        Ok(a.pairs)
    }

    /// The position after the last bar.
    pub fn pos(&self) -> Pos {
        Pos::from_sign(i32::from(self.bytes[24]) - 1)
    }

    /// Whether the last bar changed the position.
    pub fn changed(&self) -> bool {
        self.bytes[25] == 1
    }

    /// How many bars it holds.
    pub fn len(&self) -> usize {
        u32::from_le_bytes([self.bytes[0], self.bytes[1], self.bytes[2], self.bytes[3]]) as usize
    }

    /// Whether it holds no bar.
    pub fn is_empty(&self) -> bool {
        self.len() == 0
    }

    /// How many bars it has room for.
    pub fn capacity(&self) -> usize {
        (self.bytes.len() - raw::book_length(0)) / 64
    }

    /// The bytes of the book.
    pub fn as_bytes(&self) -> &[u8] {
        &self.bytes
    }
}
