//! Making a season small while something stays true of it.

use crate::season::{Bar, Season, Step};

/// A smallest season that `still` holds of, among those that can be reached by leaving out or simplifying one thing at a time.
pub fn shrink(season: Season, still: &mut dyn FnMut(&Season) -> bool) -> Season {
    let mut small = season;
    loop {
        let smaller = smaller(&small).find(&mut *still);
        match smaller {
            Some(smaller) => small = smaller,
            None => return small,
        }
    }
}

/// The seasons that are one step smaller, the boldest first.
fn smaller(season: &Season) -> impl Iterator<Item = Season> {
    fewer_steps(season)
        .chain(fewer_events(season))
        .chain(fewer_clauses(season))
        .chain(fewer_signals(season))
        .chain(simpler_sheet(season))
        .chain(simpler_bars(season))
        .filter(move |smaller| smaller != season)
}

/// The season changed by `change`.
fn with(season: &Season, change: impl FnOnce(&mut Season)) -> Season {
    let mut copy = season.clone();
    change(&mut copy);
    copy
}

/// Without a half, a quarter, .. of the steps, at last without one.
fn fewer_steps(season: &Season) -> impl Iterator<Item = Season> {
    let count = season.steps.len();
    let sizes =
        std::iter::successors(Some(count), |size| Some(size / 2)).take_while(|size| *size > 0);
    sizes.flat_map(move |size| {
        (0..count).step_by(size).map(move |start| {
            let end = (start + size).min(count);
            with(season, |copy| drop(copy.steps.drain(start..end)))
        })
    })
}

fn fewer_events(season: &Season) -> impl Iterator<Item = Season> {
    (0..season.sheet.events.len())
        .map(|index| with(season, |copy| drop(copy.sheet.events.remove(index))))
}

fn fewer_clauses(season: &Season) -> impl Iterator<Item = Season> {
    let events = season.sheet.events.iter().enumerate();
    events.flat_map(move |(index, event)| {
        (0..event.clauses.len()).map(move |clause| {
            with(season, |copy| {
                drop(copy.sheet.events[index].clauses.remove(clause))
            })
        })
    })
}

/// The season with one bar changed.
fn with_bar(season: &Season, index: usize, change: impl FnOnce(&mut Bar)) -> Season {
    with(season, |copy| {
        if let Step::Feed(bar) = &mut copy.steps[index] {
            change(bar);
        }
    })
}

fn fewer_signals(season: &Season) -> impl Iterator<Item = Season> {
    let steps = season.steps.iter().enumerate();
    steps.flat_map(move |(index, step)| {
        let count = match step {
            Step::Feed(bar) => bar.signals.len(),
            _ => 0,
        };
        (0..count).map(move |line| with_bar(season, index, |bar| drop(bar.signals.remove(line))))
    })
}

fn simpler_sheet(season: &Season) -> impl Iterator<Item = Season> {
    let settings = [
        with(season, |copy| copy.sheet.name = "n".into()),
        with(season, |copy| copy.sheet.symbol = "s".into()),
        with(season, |copy| copy.sheet.padded = false),
        with(season, |copy| copy.sheet.decimals = 0),
        with(season, |copy| copy.sheet.interval = 0),
        with(season, |copy| copy.sheet.timeout = 0),
        with(season, |copy| copy.sheet.stop = 0),
        with(season, |copy| copy.sheet.stop -= copy.sheet.stop % 100),
        with(season, |copy| copy.sheet.t0 = true),
        with(season, |copy| copy.sheet.evening = None),
    ];
    let events = 0..season.sheet.events.len();
    settings
        .into_iter()
        .chain(
            events
                .clone()
                .map(|index| with(season, |copy| copy.sheet.events[index].name = "e".into())),
        )
        .chain(events.map(|index| with(season, |copy| copy.sheet.events[index].lots = None)))
}

fn simpler_bars(season: &Season) -> impl Iterator<Item = Season> {
    (0..season.steps.len()).flat_map(move |index| {
        [
            with_bar(season, index, |bar| bar.offset = 0),
            with_bar(season, index, |bar| bar.id = index as i64),
            with_bar(season, index, |bar| bar.price = 1.0),
            with_bar(season, index, |bar| {
                bar.instant = index as i64 * 86_400_000_000
            }),
        ]
    })
}
