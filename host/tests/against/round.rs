//! One round: a season, and calls beside it with wrong arguments.

use super::numbers::{buffer, double, integer, resized};
use super::*;
use crate::model::table::{encode, read_table};
use inputs::{Bar, Rng, Step};
use position_book::raw::{NAME_LIMIT, PAIR_ROW_LIMIT, ROW_BUFFER, TABLE_LENGTH, book_length};

/// A season, and the comparisons made on the way.
struct Round<'a> {
    rng: Rng,
    comparison: &'a mut Comparison,
    /// The table, the book and the image of the season as they stand.
    arguments: Arguments,
    events: usize,
    /// Whether bars are fed as comma lines too.
    by_line: bool,
}

/// Runs the round of a seed.
pub fn round(comparison: &mut Comparison, seed: u64) {
    comparison.seed = seed;
    let mut rng = Rng::new(seed);
    let season = inputs::full_season(&mut rng);
    let text = season.sheet.text().into_bytes();
    let table = buffer(&mut rng, TABLE_LENGTH);
    let by_line = rng.once_in(3);
    let mut round = Round {
        rng,
        comparison,
        arguments: Arguments::compiling(&text, table),
        events: season.sheet.events.len(),
        by_line,
    };
    round.keep(&COMPILE);
    round.alone();
    round.sheets(&text);
    round.tables();
    round.play(&season.steps);
    round.lengths();
    round.rows(&PAIR_ROW);
    round.rows(&HOLD_ROW);
    round.blocks();
    round.made_books(&season.bars().collect::<Vec<_>>());
}

impl Round<'_> {
    fn run(&mut self, call: &Call, arguments: &Arguments) -> (u64, Arguments) {
        self.comparison.run(call, arguments)
    }

    /// Makes a call with the season's own arguments, and keeps what it leaves.
    fn keep(&mut self, call: &Call) {
        let (_, after) = self.comparison.run(call, &self.arguments);
        self.arguments = after;
    }

    /// Signals and operates alone, the names of codes.
    fn alone(&mut self) {
        for _ in 0..4 {
            let signal = inputs::signal(&mut self.rng);
            self.text_alone(&SIGNAL, signal);
            let operate = inputs::operate(&mut self.rng);
            self.text_alone(&OPERATE, operate);
            let length = self.rng.below(9);
            let arguments = Arguments {
                code: *self.rng.pick(&[0, 1, 2, 3, 4, 5, 6, 7, u32::MAX]),
                buffer: buffer(&mut self.rng, length),
                ..Arguments::default()
            };
            self.run(&OPERATE_NAME, &arguments);
        }
    }

    /// A text alone, as it is or with a fault, and a buffer about as long.
    fn text_alone(&mut self, call: &Call, text: String) {
        let mut text = text.into_bytes();
        if self.rng.once_in(2) {
            text = texts::fault(&mut self.rng, &text);
        }
        let length = (text.len() + 3).saturating_sub(self.rng.below(5));
        let arguments = Arguments {
            text,
            buffer: buffer(&mut self.rng, length),
            ..Arguments::default()
        };
        self.run(call, &arguments);
    }

    /// Sheets with faults.
    fn sheets(&mut self, text: &[u8]) {
        for _ in 0..8 {
            let text = texts::fault(&mut self.rng, text);
            let table = buffer(&mut self.rng, TABLE_LENGTH);
            self.run(&COMPILE, &Arguments::compiling(&text, table));
        }
    }

    /// Names of events, of the season's table and of tables with one fault or two.
    fn tables(&mut self) {
        for faults in [0, 1, 1, 1, 1, 1, 1, 1, 1, 2, 2, 2, 2] {
            let mut arguments = Arguments::default();
            let table = self.arguments.table.clone();
            arguments.table = (0..faults).fold(table, |table, _| self.faulty_table(&table));
            arguments.index = self.index(self.events);
            arguments.buffer = buffer(&mut self.rng, NAME_LIMIT);
            self.run(&EVENT_NAME, &arguments);
        }
    }

    /// A table with a fault. Where the model still takes it, it is the one table of its sheet.
    fn faulty_table(&mut self, table: &[u8]) -> Vec<u8> {
        let sheet_of =
            |table: &[u8]| (table.len() == TABLE_LENGTH).then(|| read_table(table).ok())?;
        let faulty = match self.rng.below(30) {
            0 => (0..TABLE_LENGTH).map(|_| self.rng.bits() as u8).collect(),
            1 => resized(&mut self.rng, table),
            _ if sheet_of(table).is_some() => tables::fault(&mut self.rng, table),
            _ => table.to_vec(),
        };
        if let Some(sheet) = sheet_of(&faulty) {
            assert!(
                faulty.starts_with(&encode(&sheet)),
                "a table is not its sheet's"
            );
        }
        faulty
    }

    /// An index around a count, or any.
    fn index(&mut self, count: usize) -> i64 {
        match self.rng.below(6) {
            0 => integer(&mut self.rng),
            1 => count as i64 + self.rng.between(-1, 1),
            _ => self.rng.below(count + 1) as i64,
        }
    }

    /// Plays the steps of a season on one book, with wrong calls between them.
    fn play(&mut self, steps: &[Step]) {
        let few = 1 + self.rng.below(6);
        let bars = if self.rng.once_in(8) {
            few
        } else {
            steps.len() + 1
        };
        self.arguments.book = buffer(&mut self.rng, book_length(bars));
        self.arguments.image = buffer(&mut self.rng, book_length(bars));
        self.keep(&FRESH);
        for step in steps {
            match step {
                Step::Feed(bar) => self.feed(bar),
                Step::Save => self.keep(&SAVE),
                Step::Restore => self.keep(&RESTORE),
            }
            self.astray();
        }
    }

    /// A feed by numbers, or, in some seasons every other time, by a comma line.
    fn feeding(&mut self) -> &'static Call {
        if self.by_line && self.rng.once_in(2) {
            &FEED_LINE
        } else {
            &FEED
        }
    }

    fn feed(&mut self, bar: &Bar) {
        self.arguments.id = bar.id;
        self.arguments.instant = bar.instant;
        self.arguments.offset = bar.offset;
        self.arguments.price = bar.price.to_bits();
        self.arguments.text = bar.signals_text().into_bytes();
        self.arguments.line = lines::of_bar(&mut self.rng, &self.arguments);
        let call = self.feeding();
        self.keep(call);
        if self.rng.once_in(2) {
            self.wrong_feed();
        }
        for _ in 0..self.rng.below(3) {
            self.wrong_line();
        }
    }

    /// A feed of any comma line of a bar a little later; now and then with another wrong argument or with two.
    fn wrong_line(&mut self) {
        let mut arguments = self.arguments.clone();
        let later = self.rng.between(-1, 90_000_000_000);
        arguments.instant = arguments.instant.saturating_add(later);
        arguments.line = lines::any(&mut self.rng, &arguments);
        for _ in 0..self.rng.below(6).saturating_sub(3) {
            match self.rng.below(4) {
                0 => arguments.table = self.faulty_table(&arguments.table),
                1 => arguments.book = self.faulty_book(&arguments.book),
                _ => arguments.text = self.faulty_signals(&arguments.text),
            }
        }
        self.run(&FEED_LINE, &arguments);
    }

    /// A feed of a bar a little later with one wrong argument, or with two.
    fn wrong_feed(&mut self) {
        let mut arguments = self.arguments.clone();
        let later = self.rng.between(-1, 90_000_000_000);
        arguments.instant = arguments.instant.saturating_add(later);
        for _ in 0..1 + self.rng.below(2) {
            match self.rng.below(8) {
                0 => arguments.id = integer(&mut self.rng),
                1 => arguments.instant = integer(&mut self.rng),
                2 => arguments.offset = integer(&mut self.rng),
                3 => arguments.price = double(&mut self.rng),
                4 => arguments.table = self.faulty_table(&arguments.table),
                5 => arguments.book = self.faulty_book(&arguments.book),
                _ => arguments.text = self.faulty_signals(&arguments.text),
            }
        }
        self.run(&FEED, &arguments);
    }

    /// A bar's signals with a fault, perhaps all of them twice.
    fn faulty_signals(&mut self, text: &[u8]) -> Vec<u8> {
        if self.rng.once_in(4) {
            return [text, text].concat();
        }
        texts::fault(&mut self.rng, text)
    }

    fn faulty_book(&mut self, book: &[u8]) -> Vec<u8> {
        match self.rng.below(24) {
            0 => book.iter().map(|_| self.rng.bits() as u8).collect(),
            1 => resized(&mut self.rng, book),
            _ => books::fault(&mut self.rng, book),
        }
    }

    /// A call beside the season with a wrong argument, of which the season keeps nothing.
    fn astray(&mut self) {
        let mut arguments = self.arguments.clone();
        arguments.index = self.index(4);
        let room = *self.rng.pick(&[ROW_BUFFER + 1, PAIR_ROW_LIMIT]);
        arguments.buffer = buffer(&mut self.rng, room);
        match self.rng.below(5) {
            0 => arguments.table = self.faulty_table(&arguments.table),
            1 => arguments.book = self.faulty_book(&arguments.book),
            2 => arguments.image = self.faulty_book(&arguments.book),
            3 => arguments.image = self.faulty_book(&arguments.image),
            _ => arguments.book = self.arguments.image.clone(),
        }
        let calls = [
            &SAVE, &RESTORE, &PAIR_ROW, &HOLD_ROW, &PAIR_ROWS, &HOLD_ROWS, &COUNTS,
        ];
        let call = *self.rng.pick(&calls);
        self.run(call, &arguments);
    }

    /// Each call with one buffer of a wrong length.
    fn lengths(&mut self) {
        for call in CALLS {
            let mut arguments = self.arguments.clone();
            arguments.buffer = buffer(&mut self.rng, ROW_BUFFER);
            match self.rng.below(4) {
                0 => arguments.table = resized(&mut self.rng, &arguments.table),
                1 => arguments.book = resized(&mut self.rng, &arguments.book),
                2 => arguments.image = resized(&mut self.rng, &arguments.image),
                _ => arguments.buffer = resized(&mut self.rng, &arguments.buffer),
            }
            self.run(call, &arguments);
        }
    }

    /// All rows of the season's book, and one past the last.
    fn rows(&mut self, call: &Call) {
        for index in 0.. {
            let length = ROW_BUFFER + self.rng.below(3);
            let mut arguments = self.arguments.clone();
            arguments.buffer = buffer(&mut self.rng, length);
            arguments.index = index;
            if self.run(call, &arguments).0 != 0 {
                return;
            }
        }
    }

    /// Blocks of rows of the season's book, from any row on, into a buffer for one row or for some.
    fn blocks(&mut self) {
        self.run(&COUNTS, &self.arguments.clone());
        for call in [&PAIR_ROWS, &HOLD_ROWS] {
            let shortest = if call.name == HOLD_ROWS.name {
                32
            } else {
                PAIR_ROW_LIMIT
            };
            for _ in 0..4 {
                let more = *self.rng.pick(&[0, 1, 31, 32, 100, 300, 5_000]);
                let mut arguments = self.arguments.clone();
                arguments.buffer = buffer(&mut self.rng, shortest + more);
                arguments.index = self.index(3);
                self.run(call, &arguments);
            }
        }
    }

    /// Books that no season gives: rows, a save and a restore of them, and bars behind them.
    fn made_books(&mut self, bars: &[&Bar]) {
        for _ in 0..6 {
            let mut arguments = self.arguments.clone();
            arguments.book = books::made(&mut self.rng, self.events);
            arguments.image = buffer(&mut self.rng, arguments.book.len());
            arguments.buffer = buffer(&mut self.rng, PAIR_ROW_LIMIT);
            arguments.index = self.index(2);
            match self.rng.below(4) {
                0 => arguments.table = self.faulty_table(&arguments.table),
                1 => arguments.book = books::fault(&mut self.rng, &arguments.book),
                _ => {}
            }
            for call in [&PAIR_ROW, &HOLD_ROW, &PAIR_ROWS, &HOLD_ROWS, &COUNTS] {
                self.run(call, &arguments);
            }
            let saved = self.run(&SAVE, &arguments).1;
            self.run(&RESTORE, &saved);
            self.feed_made(bars, arguments);
        }
    }

    /// Feeds bars behind a book's end, with ids around its reference's and signals of the season.
    fn feed_made(&mut self, bars: &[&Bar], mut arguments: Arguments) {
        let times = [
            1,
            1_000_000,
            10_000_000,
            10_800_000_000,
            43_200_000_000,
            75_600_000_000,
            86_400_000_000,
        ];
        for _ in 0..3 {
            let end = i64::from_le_bytes(arguments.book[32..40].try_into().unwrap());
            let id = i32::from_le_bytes(arguments.book[68..72].try_into().unwrap());
            if let Some(bar) = bars.get(self.rng.below(bars.len() + 1)) {
                arguments.text = bar.signals_text().into_bytes();
                arguments.price = bar.price.to_bits();
            }
            arguments.instant = end.saturating_add(*self.rng.pick(&times));
            arguments.id = i64::from(id) + self.rng.between(-1, 7);
            arguments.offset = *self.rng.pick(&[0, 28_800, -86_399]);
            arguments.line = lines::of_bar(&mut self.rng, &arguments);
            let call = self.feeding();
            arguments = self.run(call, &arguments).1;
        }
    }
}
