//! The exported calls as they are: numbers and byte slices in, the documents' number and values out.
//!
//! Each function is safe, because no call asks anything of its caller but room on the stack ([`COMPILE_STACK`],
//! [`CALL_STACK`]): whatever the bytes and numbers are, it ends within its buffers, and a refusal changes no byte.
//! `include/position_book.h` declares the same calls for C.

/// The bytes of a table.
pub const TABLE_LENGTH: usize = 32_768;

/// The least length of a row buffer.
pub const ROW_BUFFER: usize = 2_048;

/// The bytes of a hold row in a block.
pub const HOLD_ROW: usize = 32;

/// The most bytes of a pair row in a block: its numbers, and texts that fit a row buffer.
pub const PAIR_ROW_LIMIT: usize = 96 + ROW_BUFFER;

/// The most bytes of an event's name.
pub const NAME_LIMIT: usize = 256;

/// The bytes of the stack that [`compile`] needs. A thread that has less left when it calls ends the process, as in any
/// Rust function that finds no stack. `tests/stack.rs` reads from the archive what a call uses.
pub const COMPILE_STACK: usize = 65_536;

/// The bytes of the stack that every other call needs.
pub const CALL_STACK: usize = 16_384;

/// The bytes of a book for so many bars.
pub const fn book_length(capacity: usize) -> usize {
    96 + 64 * capacity
}

/// The length of a name.
#[repr(C)]
#[derive(Clone, Copy, Debug, PartialEq)]
pub struct NameAnswer {
    pub number: u32,
    pub length: usize,
}

/// What a feed says: the position after the bar (-1, 0 or 1), whether it changed, and what decided the bar: 0 nothing, 1 an event, 2 the
/// stop, 3 the timeout; the event's index where it is 1.
#[repr(C)]
#[derive(Clone, Copy, Debug, PartialEq)]
pub struct FeedAnswer {
    pub number: u32,
    pub pos: i32,
    pub changed: u32,
    pub decision: u32,
    pub event: u32,
}

/// A pair row: 1 for L or -1 for S, both local times, both prices, the id difference, days, the yield where it is present, the
/// lengths of symbol, mark and sequence, and the lots that were opened.
#[repr(C)]
#[derive(Clone, Copy, Debug, PartialEq)]
pub struct PairAnswer {
    pub number: u32,
    pub side: i32,
    pub opened: i64,
    pub closed: i64,
    pub from: f64,
    pub to: f64,
    pub ids: i64,
    pub days: f64,
    pub present: u32,
    pub bp: f64,
    pub symbol: usize,
    pub mark: usize,
    pub sequence: usize,
    pub lots: u32,
}

/// A hold row: its local time, -1, 0 or 1, its price, and the yield where it is present.
#[repr(C)]
#[derive(Clone, Copy, Debug, PartialEq)]
pub struct HoldAnswer {
    pub number: u32,
    pub local: i64,
    pub pos: i32,
    pub price: f64,
    pub present: u32,
    pub bp: f64,
}

/// A block of rows: how many, and the length of their bytes.
#[repr(C)]
#[derive(Clone, Copy, Debug, PartialEq)]
pub struct BlockAnswer {
    pub number: u32,
    pub rows: usize,
    pub length: usize,
}

/// How many rows a book has.
#[repr(C)]
#[derive(Clone, Copy, Debug, PartialEq)]
pub struct CountsAnswer {
    pub number: u32,
    pub holds: usize,
    pub pairs: usize,
}

/// What a signal alone says: its score, and the lengths of its key and its three values.
#[repr(C)]
#[derive(Clone, Copy, Debug, PartialEq)]
pub struct SignalAnswer {
    pub number: u32,
    pub score: u64,
    pub key: usize,
    pub v1: usize,
    pub v2: usize,
    pub v3: usize,
}

/// The code of an operate alone.
#[repr(C)]
#[derive(Clone, Copy, Debug, PartialEq)]
pub struct OperateAnswer {
    pub number: u32,
    pub code: u32,
}

// The declarations. A byte slice crosses as a pointer and a length. `tests/declarations.rs` holds them to the exported signatures.
mod calls {
    use super::*;

    unsafe extern "C" {
        pub fn position_book_compile(
            text: *const u8,
            text_length: usize,
            table: *mut u8,
            table_length: usize,
        ) -> u32;
        pub fn position_book_fresh(book: *mut u8, book_length: usize) -> u32;
        pub fn position_book_feed(
            table: *const u8,
            table_length: usize,
            book: *mut u8,
            book_length: usize,
            id: i64,
            instant: i64,
            offset: i64,
            price: f64,
            signals: *const u8,
            signals_length: usize,
        ) -> FeedAnswer;
        pub fn position_book_feed_line(
            table: *const u8,
            table_length: usize,
            book: *mut u8,
            book_length: usize,
            line: *const u8,
            line_length: usize,
            signals: *const u8,
            signals_length: usize,
        ) -> FeedAnswer;
        pub fn position_book_save(
            table: *const u8,
            table_length: usize,
            book: *const u8,
            book_length: usize,
            image: *mut u8,
            image_length: usize,
        ) -> u32;
        pub fn position_book_restore(
            table: *const u8,
            table_length: usize,
            book: *mut u8,
            book_length: usize,
            image: *const u8,
            image_length: usize,
        ) -> u32;
        pub fn position_book_pair_row(
            table: *const u8,
            table_length: usize,
            book: *const u8,
            book_length: usize,
            index: i64,
            buffer: *mut u8,
            buffer_length: usize,
        ) -> PairAnswer;
        pub fn position_book_hold_row(
            table: *const u8,
            table_length: usize,
            book: *const u8,
            book_length: usize,
            index: i64,
        ) -> HoldAnswer;
        pub fn position_book_pair_rows(
            table: *const u8,
            table_length: usize,
            book: *const u8,
            book_length: usize,
            first: i64,
            rows: *mut u8,
            rows_length: usize,
        ) -> BlockAnswer;
        pub fn position_book_hold_rows(
            table: *const u8,
            table_length: usize,
            book: *const u8,
            book_length: usize,
            first: i64,
            rows: *mut u8,
            rows_length: usize,
        ) -> BlockAnswer;
        pub fn position_book_counts(
            table: *const u8,
            table_length: usize,
            book: *const u8,
            book_length: usize,
        ) -> CountsAnswer;
        pub fn position_book_event_name(
            table: *const u8,
            table_length: usize,
            index: i64,
            buffer: *mut u8,
            buffer_length: usize,
        ) -> NameAnswer;
        pub fn position_book_signal(
            text: *const u8,
            text_length: usize,
            out: *mut u8,
            out_length: usize,
        ) -> SignalAnswer;
        pub fn position_book_operate(text: *const u8, text_length: usize) -> OperateAnswer;
        pub fn position_book_operate_name(code: u32, out: *mut u8, out_length: usize)
        -> NameAnswer;
    }
}

// SAFETY, of every call below: each pointer comes with the length of the slice that it is of, a slice that is written is lent exclusively,
// and the calls ask nothing else (their contracts have no `requires`).

/// Compiles the sheet of a text into the table.
pub fn compile(text: &[u8], table: &mut [u8]) -> u32 {
    unsafe {
        calls::position_book_compile(text.as_ptr(), text.len(), table.as_mut_ptr(), table.len())
    }
}

/// Makes the book one with no bars.
pub fn fresh(book: &mut [u8]) -> u32 {
    unsafe { calls::position_book_fresh(book.as_mut_ptr(), book.len()) }
}

/// Feeds a bar and its signals into the book, by the table.
pub fn feed(
    table: &[u8],
    book: &mut [u8],
    id: i64,
    instant: i64,
    offset: i64,
    price: f64,
    signals: &[u8],
) -> FeedAnswer {
    unsafe {
        calls::position_book_feed(
            table.as_ptr(),
            table.len(),
            book.as_mut_ptr(),
            book.len(),
            id,
            instant,
            offset,
            price,
            signals.as_ptr(),
            signals.len(),
        )
    }
}

/// Feeds the bar of one line of the exchange's comma file, without its LF, and its signals into the book, by the table.
pub fn feed_line(table: &[u8], book: &mut [u8], line: &[u8], signals: &[u8]) -> FeedAnswer {
    unsafe {
        calls::position_book_feed_line(
            table.as_ptr(),
            table.len(),
            book.as_mut_ptr(),
            book.len(),
            line.as_ptr(),
            line.len(),
            signals.as_ptr(),
            signals.len(),
        )
    }
}

/// Copies the book to the image.
pub fn save(table: &[u8], book: &[u8], image: &mut [u8]) -> u32 {
    unsafe {
        calls::position_book_save(
            table.as_ptr(),
            table.len(),
            book.as_ptr(),
            book.len(),
            image.as_mut_ptr(),
            image.len(),
        )
    }
}

/// Copies the image back to the book.
pub fn restore(table: &[u8], book: &mut [u8], image: &[u8]) -> u32 {
    unsafe {
        calls::position_book_restore(
            table.as_ptr(),
            table.len(),
            book.as_mut_ptr(),
            book.len(),
            image.as_ptr(),
            image.len(),
        )
    }
}

/// A pair row of the book by its index; its symbol, mark and sequence go one after another to the start of the buffer.
pub fn pair_row(table: &[u8], book: &[u8], index: i64, buffer: &mut [u8]) -> PairAnswer {
    unsafe {
        calls::position_book_pair_row(
            table.as_ptr(),
            table.len(),
            book.as_ptr(),
            book.len(),
            index,
            buffer.as_mut_ptr(),
            buffer.len(),
        )
    }
}

/// A hold row of the book by its index.
pub fn hold_row(table: &[u8], book: &[u8], index: i64) -> HoldAnswer {
    unsafe {
        calls::position_book_hold_row(
            table.as_ptr(),
            table.len(),
            book.as_ptr(),
            book.len(),
            index,
        )
    }
}

/// The pair rows from number `first` on, one after another from the start of `rows` on: as many as fit.
pub fn pair_rows(table: &[u8], book: &[u8], first: i64, rows: &mut [u8]) -> BlockAnswer {
    unsafe {
        calls::position_book_pair_rows(
            table.as_ptr(),
            table.len(),
            book.as_ptr(),
            book.len(),
            first,
            rows.as_mut_ptr(),
            rows.len(),
        )
    }
}

/// The hold rows from number `first` on, one after another from the start of `rows` on: as many as fit.
pub fn hold_rows(table: &[u8], book: &[u8], first: i64, rows: &mut [u8]) -> BlockAnswer {
    unsafe {
        calls::position_book_hold_rows(
            table.as_ptr(),
            table.len(),
            book.as_ptr(),
            book.len(),
            first,
            rows.as_mut_ptr(),
            rows.len(),
        )
    }
}

/// How many hold rows and pair rows the book has.
pub fn counts(table: &[u8], book: &[u8]) -> CountsAnswer {
    unsafe { calls::position_book_counts(table.as_ptr(), table.len(), book.as_ptr(), book.len()) }
}

/// The name of an event of the table by its index, to the start of the buffer, which must have [`NAME_LIMIT`] bytes or more.
pub fn event_name(table: &[u8], index: i64, buffer: &mut [u8]) -> NameAnswer {
    unsafe {
        calls::position_book_event_name(
            table.as_ptr(),
            table.len(),
            index,
            buffer.as_mut_ptr(),
            buffer.len(),
        )
    }
}

/// Reads a signal alone. Its key and values go one after another to the start of `out`, which must not be shorter than the text.
pub fn signal(text: &[u8], out: &mut [u8]) -> SignalAnswer {
    unsafe { calls::position_book_signal(text.as_ptr(), text.len(), out.as_mut_ptr(), out.len()) }
}

/// Reads an operate alone, in either spelling.
pub fn operate(text: &[u8]) -> OperateAnswer {
    unsafe { calls::position_book_operate(text.as_ptr(), text.len()) }
}

/// Writes the Chinese name of an operate's code to the start of `out`, which must have 6 bytes or more.
pub fn operate_name(code: u32, out: &mut [u8]) -> NameAnswer {
    unsafe { calls::position_book_operate_name(code, out.as_mut_ptr(), out.len()) }
}
