//! Seeded inputs for the position book: sheets, seasons of bars, signals and operates alone.
//!
//! A season is valid in document 01's sense, and aimed at the boundaries that it names: whole seconds around the interval, ids around the
//! timeout, prices around the stop, local midnights and the openings of trading days, late bars, wildcards, scores of every form. `damage`
//! makes wrong bytes of right ones, `shrink` makes a small season of a large one. The same seed gives the same inputs.

mod alone;
mod bars;
mod damage;
mod rng;
mod season;
mod sheets;
mod shrink;
mod signals;
mod words;

pub use alone::{operate, signal};
pub use damage::damage;
pub use rng::Rng;
pub use season::{Bar, Clause, Event, Kind, Season, Sheet, Step};
pub use shrink::shrink;

/// The last instant that a bar may have, in microseconds from 1970 UTC.
pub const LAST_INSTANT: i64 = 4_102_444_799_999_999;
/// The largest offset of a bar, in seconds, on both sides of 0.
pub const LAST_OFFSET: i64 = 86_399;
/// The largest evening of a sheet, in minutes.
pub const LAST_EVENING: i64 = 1_439;
/// The most lots.
pub const LOTS_LIMIT: i64 = 1_000;
/// The highest score of a sheet's clause, and the highest that the Rust takes.
pub const SCORE_LIMIT: i64 = 1_000;
pub const RUST_SCORE_LIMIT: i64 = 100;
/// The last id of a bar.
pub const LAST_ID: i64 = 2_147_483_647;
/// The most bytes of a text.
pub const TEXT_LIMIT: usize = 16_384;
/// The most events of a sheet.
pub const EVENT_LIMIT: usize = 32;
/// The most clauses of a sheet, and the most signals of a bar.
pub const LINE_LIMIT: usize = 256;
/// The most bytes of a name or a symbol.
pub const NAME_LIMIT: usize = 256;

/// A valid season: a sheet, and the bars that are fed, with a save and a restore here and there. Its days open at
/// midnight, as the Rust's do: one sheet in three says so by a seventh value of 0, the others have none. No opening says
/// lots, so that all are 1, and scores stop at 100.
pub fn season(rng: &mut Rng) -> Season {
    let evening = rng.once_in(3).then_some(0);
    let sheet = sheets::sheet(rng, evening);
    with_bars(rng, sheet)
}

/// The same with lots (document 02, W4), which the Rust is not told.
pub fn lots_season(rng: &mut Rng) -> Season {
    let season = season(rng);
    with_lots(rng, season)
}

/// The same with all that document 02 lets a sheet say: any evening (W3) and scores up to 1,000 (W8) too, which the Rust does not take.
pub fn full_season(rng: &mut Rng) -> Season {
    let evening = sheets::evening(rng);
    let mut sheet = sheets::sheet(rng, evening);
    sheets::raise_scores(rng, &mut sheet);
    let season = with_bars(rng, sheet);
    with_lots(rng, season)
}

fn with_lots(rng: &mut Rng, mut season: Season) -> Season {
    sheets::add_lots(rng, &mut season.sheet);
    season
}

fn with_bars(rng: &mut Rng, sheet: Sheet) -> Season {
    let steps = bars::steps(rng, &sheet);
    Season { sheet, steps }
}
