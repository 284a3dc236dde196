//! The rows of a book: its trade pairs and its holds.

use crate::book::Pos;
use crate::raw;
use crate::refusal::{Refusal, done};
use crate::signal::cut;
use crate::time::LocalTime;

/// The side of a trade pair.
#[derive(Clone, Copy, Debug, PartialEq, Eq, Hash)]
pub enum Side {
    Long,
    Short,
}

/// A trade pair: what opened a position, and what closed it.
#[derive(Clone, Debug, PartialEq)]
pub struct Pair {
    pub symbol: String,
    /// The position's name.
    pub mark: String,
    pub side: Side,
    /// The local times.
    pub opened: LocalTime,
    pub closed: LocalTime,
    /// The prices.
    pub from: f64,
    pub to: f64,
    /// The id difference.
    pub ids: i64,
    /// What opened it, ` -> `, and what closed it.
    pub sequence: String,
    pub days: f64,
    /// The yield in basis points; none where it opened at a price of zero.
    pub bp: Option<f64>,
    /// The lots that were opened.
    pub lots: u32,
}

/// A bar that was held.
#[derive(Clone, Copy, Debug, PartialEq)]
pub struct Hold {
    pub local: LocalTime,
    pub pos: Pos,
    pub price: f64,
    /// The yield to the next bar in basis points; none where there is none yet, or the price is not above zero. Where both prices are
    /// positive and the next one is at least half and at most twice this one, it is within 1/2^38 of the exact yield.
    pub bp: Option<f64>,
}

/// The trade pairs of a book, in their order.
///
/// ```
/// use position_book::{Bar, Book, Instant, Refusal, Side, Table};
/// let table = Table::compile("P|soy|M1|0|1|100|1\nO|SO|down|5\nA|d_u_w_down_任意_任意_0\n")?;
/// let mut book = Book::fresh(10)?;
/// for (id, price) in [(1, 100.0), (2, 90.0), (3, 80.0)] {
///     let signals = if id == 1 { "d_u_w|down_a_b_5\n" } else { "" };
///     book.feed(&table, Bar { id, instant: Instant(id * 1_000_000), offset: 0, price }, signals)?;
/// }
/// let pairs: Vec<_> = book.pairs(&table)?.collect();
/// assert_eq!((pairs.len(), pairs[0].side, pairs[0].bp), (1, Side::Short, Some(2000.0)));
/// assert_eq!((pairs[0].sequence.as_str(), pairs[0].lots), ("down@is_match -> 平空@1K超时", 5));
/// # Ok::<(), Refusal>(())
/// ```
pub struct Pairs<'a>(Blocks<'a>);

/// The holds of a book, in their order.
///
/// ```
/// use position_book::{Bar, Book, Instant, Refusal, Table};
/// let table = Table::compile("P|soy|M1|0|5|100|0\n")?;
/// let mut book = Book::fresh(10)?;
/// for (id, price) in [(1, 100.0), (2, 125.0)] {
///     book.feed(&table, Bar { id, instant: Instant(id * 1_000_000), offset: 0, price }, "")?;
/// }
/// let yields: Vec<_> = book.holds(&table)?.map(|hold| hold.bp).collect();
/// assert_eq!(yields, [Some(2500.0), None]);
/// # Ok::<(), Refusal>(())
/// ```
pub struct Holds<'a>(Blocks<'a>);

impl<'a> Pairs<'a> {
    pub(crate) fn new(table: &'a [u8], book: &'a [u8]) -> Result<Pairs<'a>, Refusal> {
        let ask = Ask {
            rows: raw::pair_rows,
            longest: raw::PAIR_ROW_LIMIT,
        };
        Ok(Pairs(Blocks::new(table, book, ask)?))
    }
}

impl Iterator for Pairs<'_> {
    type Item = Pair;

    fn next(&mut self) -> Option<Pair> {
        self.0.row(|rest| {
            let side = i32::from_le_bytes(bytes(rest));
            let present = u32::from_le_bytes(bytes(rest));
            let (opened, closed) = (local(rest), local(rest));
            let (from, to) = (double(rest), double(rest));
            let (ids, days) = (whole(rest), double(rest));
            let bp = yielded(present, double(rest));
            let (symbol, mark, sequence) = (length(rest), length(rest), length(rest));
            let lots = u64::from_le_bytes(bytes(rest)) as u32;
            Pair {
                symbol: cut(rest, symbol),
                mark: cut(rest, mark),
                sequence: cut(rest, sequence),
                side: if side == 1 { Side::Long } else { Side::Short },
                opened,
                closed,
                from,
                to,
                ids,
                days,
                bp,
                lots,
            }
        })
    }
}

impl<'a> Holds<'a> {
    pub(crate) fn new(table: &'a [u8], book: &'a [u8]) -> Result<Holds<'a>, Refusal> {
        let ask = Ask {
            rows: raw::hold_rows,
            longest: raw::HOLD_ROW,
        };
        Ok(Holds(Blocks::new(table, book, ask)?))
    }
}

impl Iterator for Holds<'_> {
    type Item = Hold;

    fn next(&mut self) -> Option<Hold> {
        self.0.row(|rest| {
            let local = local(rest);
            let pos = Pos::from_sign(i32::from_le_bytes(bytes(rest)));
            let present = u32::from_le_bytes(bytes(rest));
            let price = double(rest);
            Hold {
                local,
                pos,
                price,
                bp: yielded(present, double(rest)),
            }
        })
    }
}

/// The first block's length; each next one has twice the room, so that few checks of the book answer all rows.
const FIRST_BLOCK: usize = 1 << 20;

/// The longest block.
const LAST_BLOCK: usize = 1 << 24;

/// The rows of a book, a block of them after each check.
struct Blocks<'a> {
    table: &'a [u8],
    book: &'a [u8],
    ask: Ask,
    /// The block, where its next row stands, and where its rows end.
    block: Vec<u8>,
    at: usize,
    end: usize,
    /// The first row behind the block; none behind the last block.
    next: Option<i64>,
}

/// A call that answers a block of rows, and the length of its longest row.
struct Ask {
    rows: fn(&[u8], &[u8], i64, &mut [u8]) -> raw::BlockAnswer,
    longest: usize,
}

impl<'a> Blocks<'a> {
    fn new(table: &'a [u8], book: &'a [u8], ask: Ask) -> Result<Blocks<'a>, Refusal> {
        let mut blocks = Blocks {
            table,
            book,
            ask,
            block: vec![0; FIRST_BLOCK],
            at: 0,
            end: 0,
            next: Some(0),
        };
        blocks.fill()?;
        Ok(blocks)
    }

    /// Asks for the next block, where there may be one. It is the last where it has room for another row.
    fn fill(&mut self) -> Result<(), Refusal> {
        let Some(first) = self.next else {
            return Ok(());
        };
        let a = (self.ask.rows)(self.table, self.book, first, &mut self.block);
        match done(a.number) {
            Ok(()) | Err(Refusal::NoSuchRow) => {}
            Err(why) => return Err(why),
        }
        let is_last = self.block.len() - a.length >= self.ask.longest;
        self.next = (!is_last).then_some(first + a.rows as i64);
        (self.at, self.end) = (0, a.length);
        Ok(())
    }

    /// The next row, as it is read from the bytes.
    fn row<R>(&mut self, read: impl Fn(&mut &[u8]) -> R) -> Option<R> {
        if self.at == self.end {
            self.next?;
            self.block.resize(LAST_BLOCK.min(2 * self.block.len()), 0);
            self.fill().ok()?;
        }
        if self.at == self.end {
            return None;
        }
        let mut rest = &self.block[self.at..self.end];
        let row = read(&mut rest);
        self.at = self.end - rest.len();
        Some(row)
    }
}

/// The first N bytes, which are then behind us.
fn bytes<const N: usize>(rest: &mut &[u8]) -> [u8; N] {
    let (first, later) = rest.split_first_chunk().expect("a whole row");
    *rest = later;
    *first
}

fn whole(rest: &mut &[u8]) -> i64 {
    i64::from_le_bytes(bytes(rest))
}

fn local(rest: &mut &[u8]) -> LocalTime {
    LocalTime::of_row(whole(rest))
}

fn double(rest: &mut &[u8]) -> f64 {
    f64::from_le_bytes(bytes(rest))
}

fn length(rest: &mut &[u8]) -> usize {
    u64::from_le_bytes(bytes(rest)) as usize
}

/// A yield, where it is present.
fn yielded(present: u32, bp: f64) -> Option<f64> {
    (present == 1).then_some(bp)
}
