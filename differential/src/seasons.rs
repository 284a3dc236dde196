//! A season on both sides: after each bar the position, at each save and restore and at the end everything.

use crate::counts::Counts;
use crate::ours::Ours;
use crate::rules::{self, Moment};
use crate::shown::{Shown, same};
use crate::theirs::Theirs;
use inputs::{Bar, Season, Step};
use position_book::raw::FeedAnswer;

/// Compares a season. Our side is given back as the season leaves it, or where the two part first.
pub fn compare(season: &Season, counts: &mut Counts) -> Result<Ours, String> {
    let mut both = Both {
        season,
        ours: Ours::new(&season.sheet, season.bars().count())?,
        theirs: Theirs::new(&season.sheet)?,
    };
    for (index, step) in season.steps.iter().enumerate() {
        both.take(index, step, counts)
            .map_err(|what| format!("step {index}: {what}"))?;
    }
    let shown = both.same().map_err(|what| format!("at the end: {what}"))?;
    rules::count_rows(&shown, counts);
    Ok(both.ours)
}

struct Both<'a> {
    season: &'a Season,
    ours: Ours,
    theirs: Theirs,
}

impl Both<'_> {
    /// Everything that the Rust shows, where ours shows the same.
    fn same(&self) -> Result<Shown, String> {
        let theirs = self.theirs.shown();
        self.ours.shown().same(&theirs)?;
        Ok(theirs)
    }

    /// Takes a step. A restore goes into the same book and position, or, at every other step, into others.
    fn take(&mut self, index: usize, step: &Step, counts: &mut Counts) -> Result<(), String> {
        match step {
            Step::Feed(bar) => return self.feed(bar, counts),
            Step::Save => {
                self.ours.save()?;
                self.theirs.save();
                counts.add("saves", 1);
            }
            Step::Restore => {
                self.same()?;
                let elsewhere = index % 2 == 1;
                if self.ours.restore(elsewhere)? {
                    self.theirs
                        .restore(elsewhere.then_some(&self.season.sheet))?;
                    counts.add("restores", 1);
                }
            }
        }
        self.same().map(drop)
    }

    fn feed(&mut self, bar: &Bar, counts: &mut Counts) -> Result<(), String> {
        let (before, book) = (self.theirs.state(), self.ours.book.clone());
        let lots = self.ours.lots();
        let answer = self.ours.feed(bar);
        self.theirs.feed(bar);
        let after = self.theirs.state();
        let late = after.holds.len() == before.holds.len();
        counts.add("bars", 1);
        same("number", &answer.number, &if late { 13 } else { 0 })?;
        let standing = self.theirs.standing();
        same("position and changed", &self.ours.standing(), &standing)?;
        if late {
            counts.add("late", 1);
            counts.add(rules::LATE_AFTER_A_CHANGE, usize::from(standing.1));
            return same("book after a late bar", &self.ours.book, &book);
        }
        same("answer", &(answer.pos, answer.changed == 1), &standing)?;
        let moment = Moment {
            sheet: &self.season.sheet,
            bar,
            answer,
            before: &before,
            after: &after,
            lots,
        };
        rules::count_bar(&moment, counts);
        same(
            "open lots",
            &i64::from(self.ours.lots()),
            &moment.lots_after(),
        )?;
        self.same_reason(&moment)
    }

    /// Where a bar wrote a record, our answer tells what decided it as the Rust's record does.
    fn same_reason(&self, moment: &Moment) -> Result<(), String> {
        let Some(record) = moment.record() else {
            return Ok(());
        };
        let FeedAnswer {
            decision, event, ..
        } = moment.answer;
        let ours = self
            .ours
            .description(record.op as u32, decision, event as i32);
        same("what decided the bar", &Some(ours), &record.op_desc)
    }
}
