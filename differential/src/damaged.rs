//! Damaged copies of what a season's calls are given. The Rust has no answer to them; a refusal must change no byte.

use crate::counts::Counts;
use crate::ours::{FOREIGN, Ours};
use inputs::{Rng, Season, damage};
use position_book::raw;

/// Gives damaged copies to each call, by the table and the book that a season left.
pub fn give(
    rng: &mut Rng,
    season: &Season,
    ours: &Ours,
    counts: &mut Counts,
) -> Result<(), String> {
    let sheet = damage(rng, season.sheet.text().as_bytes());
    let mut table = vec![FOREIGN; raw::TABLE_LENGTH];
    unchanged("compile", &mut table, counts, |table| {
        raw::compile(&sheet, table)
    })?;
    let book = sometimes_flipped(rng, &ours.book);
    let table = sometimes_flipped(rng, &ours.table);
    feed(rng, season, &table, &book, counts)?;
    let mut kept = ours.book.clone();
    unchanged("restore", &mut kept, counts, |kept| {
        raw::restore(&table, kept, &book)
    })?;
    let mut image = vec![FOREIGN; book.len()];
    unchanged("save", &mut image, counts, |image| {
        raw::save(&table, &book, image)
    })?;
    let mut buffer = vec![FOREIGN; raw::ROW_BUFFER];
    unchanged("pair_row", &mut buffer, counts, |buffer| {
        raw::pair_row(&table, &book, 0, buffer).number
    })
}

/// A copy, every third time with one or two bits changed near its start, where counts, settings and the first entries stand.
fn sometimes_flipped(rng: &mut Rng, bytes: &[u8]) -> Vec<u8> {
    let mut copy = bytes.to_vec();
    let flips = if rng.once_in(3) { 1 + rng.below(2) } else { 0 };
    for _ in 0..flips {
        let place = rng.below(copy.len().min(400));
        copy[place] ^= 1 << rng.below(8);
    }
    copy
}

/// Feeds a bar with damaged signals, or numbers out of range, into a damaged book.
fn feed(
    rng: &mut Rng,
    season: &Season,
    table: &[u8],
    book: &[u8],
    counts: &mut Counts,
) -> Result<(), String> {
    let Some(bar) = season.bars().last() else {
        return Ok(());
    };
    let signals = damage(rng, bar.signals_text().as_bytes());
    let instant = bar.instant + rng.between(-1, 2_000_000);
    let offset = bar.offset + rng.between(-1, 1);
    let mut book = book.to_vec();
    unchanged("feed", &mut book, counts, |book| {
        raw::feed(table, book, bar.id, instant, offset, bar.price, &signals).number
    })
}

/// Makes a call, and fails where it is refused and has changed the bytes.
fn unchanged(
    name: &str,
    bytes: &mut Vec<u8>,
    counts: &mut Counts,
    call: impl FnOnce(&mut [u8]) -> u32,
) -> Result<(), String> {
    let before = bytes.clone();
    let number = call(bytes);
    counts.add("damaged", 1);
    counts.add("refused", usize::from(number != 0));
    if number != 0 && *bytes != before {
        return Err(format!(
            "{name}: refused with {number}, and bytes have changed"
        ));
    }
    Ok(())
}
