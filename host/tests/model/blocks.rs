//! Beyond document 01: rows in blocks, and how many there are. A block's rows are the single calls' rows, one after another, as many as fit.

use super::book::checked;
use super::rows::{hold_row, pair_row, pairs};
use super::{Answer, number, put, require};
use position_book::raw::{BlockAnswer, CountsAnswer};

const HOLD_ROW: usize = 32;
const PAIR_ROW: usize = 96;
const ROW_BUFFER: usize = 2_048;

/// The bytes of hold row number i.
fn hold_bytes(table: &[u8], book: &[u8], i: i64) -> Answer<Vec<u8>> {
    let row = hold_row(table, book, i);
    require(row.number == 0, row.number)?;
    let mut bytes = Vec::with_capacity(HOLD_ROW);
    bytes.extend(row.local.to_le_bytes());
    bytes.extend(row.pos.to_le_bytes());
    bytes.extend(row.present.to_le_bytes());
    bytes.extend(row.price.to_le_bytes());
    bytes.extend(row.bp.to_le_bytes());
    Ok(bytes)
}

/// The bytes of pair row number i, with its texts.
fn pair_bytes(table: &[u8], book: &[u8], i: i64) -> Answer<Vec<u8>> {
    let mut texts = [0; ROW_BUFFER];
    let row = pair_row(table, book, i, &mut texts);
    require(row.number == 0, row.number)?;
    let mut bytes = Vec::with_capacity(PAIR_ROW);
    bytes.extend(row.side.to_le_bytes());
    bytes.extend(row.present.to_le_bytes());
    bytes.extend(row.opened.to_le_bytes());
    bytes.extend(row.closed.to_le_bytes());
    bytes.extend(row.from.to_le_bytes());
    bytes.extend(row.to.to_le_bytes());
    bytes.extend(row.ids.to_le_bytes());
    bytes.extend(row.days.to_le_bytes());
    bytes.extend(row.bp.to_le_bytes());
    let lengths = [row.symbol, row.mark, row.sequence];
    bytes.extend(lengths.iter().flat_map(|n| (*n as u64).to_le_bytes()));
    bytes.extend(u64::from(row.lots).to_le_bytes());
    bytes.extend(&texts[..lengths.iter().sum()]);
    Ok(bytes)
}

/// How many rows from the first on fit, and their bytes; 8 for a buffer that may not hold a row.
fn block(
    row: impl Fn(i64) -> Answer<Vec<u8>>,
    longest: usize,
    first: i64,
    room: usize,
) -> Answer<(usize, Vec<u8>)> {
    require(room >= longest, 8)?;
    let mut bytes = row(first)?;
    let mut rows = 1;
    while let Ok(next) = row(first + rows as i64) {
        if bytes.len() + next.len() > room {
            break;
        }
        bytes.extend(next);
        rows += 1;
    }
    Ok((rows, bytes))
}

/// Writes a block to the start of a buffer.
fn put_block(answer: Answer<(usize, Vec<u8>)>, buffer: &mut [u8]) -> BlockAnswer {
    let number = number(&answer);
    let (rows, bytes) = answer.unwrap_or_default();
    put(buffer, &bytes);
    BlockAnswer {
        number,
        rows,
        length: bytes.len(),
    }
}

/// The call `hold_rows`.
pub fn hold_rows(table: &[u8], book: &[u8], first: i64, rows: &mut [u8]) -> BlockAnswer {
    let row = |i| hold_bytes(table, book, i);
    put_block(block(row, HOLD_ROW, first, rows.len()), rows)
}

/// The call `pair_rows`.
pub fn pair_rows(table: &[u8], book: &[u8], first: i64, rows: &mut [u8]) -> BlockAnswer {
    let row = |i| pair_bytes(table, book, i);
    put_block(block(row, PAIR_ROW + ROW_BUFFER, first, rows.len()), rows)
}

/// The call `counts`.
pub fn counts(table: &[u8], book: &[u8]) -> CountsAnswer {
    let answer = checked(table, book);
    let number = number(&answer);
    let (holds, pairs) = answer.map_or((0, 0), |(_, state)| {
        (state.holds.len(), pairs(&state).count())
    });
    CountsAnswer {
        number,
        holds,
        pairs,
    }
}
