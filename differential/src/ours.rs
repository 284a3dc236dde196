//! Our side: a table and a book, reached by the exported calls; the book's bytes are read by docs/BOOK.md.

use crate::shown::{Hold, HoldRow, PairRow, Record, Reference, Shown, Time};
use inputs::{Bar, Sheet};
use position_book::raw::{self, FeedAnswer};

/// What a buffer holds before a call, so that a byte that is written shows.
pub const FOREIGN: u8 = 0xa5;

/// The number of a row request past the last row. Any other refusal shows as a row of zeros.
const NO_ROW: u32 = 15;

pub struct Ours {
    pub table: Vec<u8>,
    pub book: Vec<u8>,
    image: Option<Vec<u8>>,
    /// In basis points.
    stop: f64,
    timeout: i64,
}

impl Ours {
    /// A fresh book for so many bars, by a sheet.
    pub fn new(sheet: &Sheet, capacity: usize) -> Result<Ours, String> {
        let mut table = vec![FOREIGN; raw::TABLE_LENGTH];
        let mut book = vec![FOREIGN; raw::book_length(capacity.max(1))];
        done("compile", raw::compile(sheet.text().as_bytes(), &mut table))?;
        done("fresh", raw::fresh(&mut book))?;
        Ok(Ours {
            table,
            book,
            image: None,
            stop: sheet.stop_points(),
            timeout: sheet.timeout,
        })
    }

    pub fn feed(&mut self, bar: &Bar) -> FeedAnswer {
        let signals = bar.signals_text();
        raw::feed(
            &self.table,
            &mut self.book,
            bar.id,
            bar.instant,
            bar.offset,
            bar.price,
            signals.as_bytes(),
        )
    }

    pub fn save(&mut self) -> Result<(), String> {
        let mut image = vec![FOREIGN; self.book.len()];
        done("save", raw::save(&self.table, &self.book, &mut image))?;
        self.image = Some(image);
        Ok(())
    }

    /// Restores the last image, into the book or into other bytes of its length. Says whether there was one.
    pub fn restore(&mut self, elsewhere: bool) -> Result<bool, String> {
        let Some(image) = &self.image else {
            return Ok(false);
        };
        if elsewhere {
            self.book.fill(FOREIGN);
        }
        done("restore", raw::restore(&self.table, &mut self.book, image))?;
        Ok(true)
    }

    /// The position after the last accepted bar, and whether that bar changed it.
    pub fn standing(&self) -> (i32, bool) {
        (pos(self.book[24]), self.book[25] == 1)
    }

    pub fn shown(&self) -> Shown {
        let [holds, records] = [0, 4].map(|at| i32_at(&self.book, at) as usize);
        let [holds_at, records_at] = [12, 16].map(|at| i32_at(&self.book, at) as usize);
        let slots = |start: usize, count: usize| (0..count).map(move |index| start + 32 * index);
        // One row more than there can be, so that refused requests end too.
        let asked = || 0..=holds as i64;
        let (pos, changed) = self.standing();
        Shown {
            pos,
            changed,
            end: (holds > 0).then(|| self.time(32, 40)),
            long_open: self.present(26).then(|| self.time(48, 44)),
            short_open: self.present(27).then(|| self.time(56, 64)),
            reference: self.present(28).then(|| self.reference()),
            records: slots(records_at, records)
                .map(|at| self.record(at))
                .collect(),
            holds: slots(holds_at, holds).map(|at| self.hold(at)).collect(),
            pairs: asked().map_while(|index| self.pair(index)).collect(),
            hold_rows: asked().map_while(|index| self.hold_row(index)).collect(),
        }
    }

    /// The open lots, which stand in the last hold; 0 where the position is flat, or there is no hold.
    pub fn lots(&self) -> u16 {
        let holds = i32_at(&self.book, 0) as usize;
        let last = holds.checked_sub(1);
        last.map_or(0, |index| u16_at(&self.book, 96 + 32 * index + 14))
    }

    fn present(&self, at: usize) -> bool {
        self.book[at] == 1
    }

    fn time(&self, instant_at: usize, offset_at: usize) -> Time {
        Time {
            instant: i64_at(&self.book, instant_at),
            offset: i32_at(&self.book, offset_at),
        }
    }

    fn reference(&self) -> Reference {
        Reference {
            time: self.time(72, 80),
            id: i32_at(&self.book, 68),
            price: i64_at(&self.book, 88) as u64,
            operate: u32::from(self.book[29]),
            name: self.event_name(i32_at(&self.book, 84)),
        }
    }

    fn record(&self, at: usize) -> Record {
        let operate = u32::from(self.book[at + 24]);
        Record {
            time: self.time(at, at + 8),
            id: i32_at(&self.book, at + 12),
            price: i64_at(&self.book, at + 16) as u64,
            operate,
            pos: pos(self.book[at + 25]),
            description: self.description(
                operate,
                self.book[at + 26].into(),
                u16_at(&self.book, at + 28).into(),
            ),
        }
    }

    /// What a record of an operate says of why it was written: by an event (1), the stop (2) or the timeout (3).
    pub fn description(&self, operate: u32, why: u32, event: i32) -> String {
        match why {
            1 => self.event_name(event),
            2 => format!("{}@{}BP止损", operate_name(operate), self.stop),
            3 => format!("{}@{}K超时", operate_name(operate), self.timeout),
            _ => format!("{why}"),
        }
    }

    fn hold(&self, at: usize) -> Hold {
        Hold {
            time: self.time(at, at + 8),
            pos: pos(self.book[at + 12]),
            price: i64_at(&self.book, at + 16) as u64,
            bp: self
                .present(at + 13)
                .then(|| i64_at(&self.book, at + 24) as u64),
        }
    }

    fn pair(&self, index: i64) -> Option<PairRow> {
        let mut buffer = [FOREIGN; raw::ROW_BUFFER];
        let row = raw::pair_row(&self.table, &self.book, index, &mut buffer);
        let (symbol, rest) = buffer.split_at(row.symbol);
        let (mark, rest) = rest.split_at(row.mark);
        (row.number != NO_ROW).then(|| PairRow {
            symbol: text(symbol),
            mark: text(mark),
            side: row.side,
            opened: row.opened,
            closed: row.closed,
            from: row.from.to_bits(),
            to: row.to.to_bits(),
            ids: row.ids,
            sequence: text(&rest[..row.sequence]),
            days: row.days.to_bits(),
            bp: (row.present == 1).then(|| row.bp.to_bits()),
        })
    }

    fn hold_row(&self, index: i64) -> Option<HoldRow> {
        let row = raw::hold_row(&self.table, &self.book, index);
        (row.number != NO_ROW).then(|| HoldRow {
            local: row.local,
            pos: row.pos,
            price: row.price.to_bits(),
            bp: (row.present == 1).then(|| row.bp.to_bits()),
        })
    }

    fn event_name(&self, index: i32) -> String {
        let mut buffer = [FOREIGN; raw::NAME_LIMIT];
        let name = raw::event_name(&self.table, i64::from(index), &mut buffer);
        text(&buffer[..name.length])
    }
}

/// The Chinese name of an operate's code.
pub fn operate_name(code: u32) -> String {
    let mut buffer = [FOREIGN; 16];
    let name = raw::operate_name(code, &mut buffer);
    text(&buffer[..name.length])
}

fn done(call: &str, number: u32) -> Result<(), String> {
    match number {
        0 => Ok(()),
        _ => Err(format!("{call}: ours refuses a valid input with {number}")),
    }
}

fn text(bytes: &[u8]) -> String {
    String::from_utf8_lossy(bytes).into_owned()
}

fn pos(byte: u8) -> i32 {
    i32::from(byte) - 1
}

fn u16_at(book: &[u8], at: usize) -> u16 {
    u16::from_le_bytes([book[at], book[at + 1]])
}

fn i32_at(book: &[u8], at: usize) -> i32 {
    i32::from_le_bytes(std::array::from_fn(|index| book[at + index]))
}

fn i64_at(book: &[u8], at: usize) -> i64 {
    i64::from_le_bytes(std::array::from_fn(|index| book[at + index]))
}
