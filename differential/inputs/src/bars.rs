//! The bars of a season: times, ids and prices set against bars before them, so that the sheet's limits are met exactly and just missed.

use crate::season::{Bar, Sheet, Step};
use crate::{LAST_ID, LAST_INSTANT, LAST_OFFSET, Rng, signals};

const SECOND: i64 = 1_000_000;
const MINUTE: i64 = 60 * SECOND;
const DAY: i64 = 86_400 * SECOND;

/// What the next bar is set against: the accepted bars before it as a restore leaves them, and how many there were at the last save.
struct Past {
    bars: Vec<Bar>,
    saved: Option<usize>,
}

/// How the prices of a season are made.
#[derive(Clone, Copy)]
enum Prices {
    Market,
    Few,
    Edges,
    Bits,
}

/// What the bars of a season have in common: how prices are made, the usual offset, and whether bars follow each other within the interval.
struct Habits {
    prices: Prices,
    offset: i64,
    dense: bool,
}

/// The steps of a season: mostly some ten bars, now and then many.
pub fn steps(rng: &mut Rng, sheet: &Sheet) -> Vec<Step> {
    let mut past = Past {
        bars: Vec::new(),
        saved: None,
    };
    let habits = Habits {
        prices: *rng.pick(&[
            Prices::Market,
            Prices::Market,
            Prices::Few,
            Prices::Edges,
            Prices::Bits,
        ]),
        offset: offset(rng),
        dense: rng.once_in(3),
    };
    let count = match rng.below(100) {
        0 => 0,
        1 => 60 + rng.below(60),
        _ => 1 + rng.below(20),
    };
    (0..count)
        .map(|_| step(rng, sheet, &mut past, &habits))
        .collect()
}

fn step(rng: &mut Rng, sheet: &Sheet, past: &mut Past, habits: &Habits) -> Step {
    match (rng.below(40), past.saved) {
        (0 | 1, _) => {
            past.saved = Some(past.bars.len());
            Step::Save
        }
        (2 | 3, Some(count)) => {
            past.bars.truncate(count);
            Step::Restore
        }
        _ => {
            let bar = bar(rng, sheet, &past.bars, habits);
            if past
                .bars
                .last()
                .is_none_or(|last| last.instant < bar.instant)
            {
                past.bars.push(bar.clone());
            }
            Step::Feed(bar)
        }
    }
}

fn bar(rng: &mut Rng, sheet: &Sheet, past: &[Bar], habits: &Habits) -> Bar {
    let offset = if rng.once_in(8) {
        offset(rng)
    } else {
        habits.offset
    };
    let signals = signals::signals(rng, sheet);
    let Some(last) = past.last() else {
        return Bar {
            id: first_id(rng),
            instant: first_instant(rng, offset),
            offset,
            price: price(rng, habits.prices),
            signals,
        };
    };
    let anchor = rng.pick(past);
    let instant = if habits.dense && !rng.once_in(4) {
        dense_instant(rng, sheet, past)
    } else {
        next_instant(rng, sheet, last, anchor, offset)
    };
    Bar {
        id: next_id(rng, sheet, last, anchor),
        instant,
        offset,
        price: next_price(rng, sheet, anchor, habits.prices),
        signals,
    }
}

fn offset(rng: &mut Rng) -> i64 {
    match rng.below(8) {
        0 => rng.between(-LAST_OFFSET, LAST_OFFSET),
        _ => *rng.pick(&[0, 0, 28_800, -18_000, 1, -1, LAST_OFFSET, -LAST_OFFSET]),
    }
}

fn first_id(rng: &mut Rng) -> i64 {
    *rng.pick(&[0, 1, 1, 1, 100, LAST_ID - 3, LAST_ID])
}

/// Mostly one more; else an id as far from an earlier bar's as the timeout, one less or one more; or any.
fn next_id(rng: &mut Rng, sheet: &Sheet, last: &Bar, anchor: &Bar) -> i64 {
    let id = match rng.below(12) {
        0 | 1 => anchor.id + sheet.timeout + rng.between(-1, 1),
        2 => anchor.id - rng.between(0, 5),
        3 => rng.between(0, LAST_ID),
        4 => *rng.pick(&[0, LAST_ID, last.id]),
        _ => last.id + 1,
    };
    id.clamp(0, LAST_ID)
}

fn first_instant(rng: &mut Rng, offset: i64) -> i64 {
    let instant = match rng.below(6) {
        0 => *rng.pick(&[0, 0, 1, LAST_INSTANT - 9 * DAY, LAST_INSTANT - SECOND]),
        1 => rng.between(0, LAST_INSTANT),
        2 => 20 * DAY - offset * SECOND - rng.between(0, 1),
        _ => 20_000 * DAY + rng.between(0, DAY),
    };
    instant.clamp(0, LAST_INSTANT)
}

/// An instant behind the last, near the interval's end after an earlier bar, near the next opening of a trading day or near a local
/// midnight; now and then one that is not later.
fn next_instant(rng: &mut Rng, sheet: &Sheet, last: &Bar, anchor: &Bar, offset: i64) -> i64 {
    let end = last.instant;
    let evening = sheet.evening_minutes();
    let ahead = offset * SECOND + *rng.pick(&[evening, evening, 0]) * MINUTE;
    let opening = ((end + ahead).div_euclid(DAY) + 1) * DAY - ahead;
    let near = near(rng);
    let instant = match rng.below(16) {
        0 => return *rng.pick(&[end, (end - 1).max(0), anchor.instant]),
        1 => end + 1,
        2 => end + 500_000,
        3..6 => anchor.instant + sheet.interval * SECOND + near,
        6..9 => opening + near,
        9 => end + DAY,
        10 => end + rng.between(1, 400 * DAY),
        _ => end + rng.between(1, DAY),
    };
    later(rng, end, instant)
}

/// An instant within the interval, or near its end after one of the last four bars.
fn dense_instant(rng: &mut Rng, sheet: &Sheet, past: &[Bar]) -> i64 {
    let recent = &past[past.len().saturating_sub(4)..];
    let end = past[past.len() - 1].instant;
    let instant = if rng.once_in(2) {
        end + rng.between(1, sheet.interval * SECOND / 4 + 1)
    } else {
        rng.pick(recent).instant + sheet.interval * SECOND + near(rng)
    };
    later(rng, end, instant)
}

/// Some microseconds around a limit of whole seconds.
fn near(rng: &mut Rng) -> i64 {
    *rng.pick(&[-SECOND, -1, 0, 1, 900_000, SECOND - 1, SECOND, SECOND + 1])
}

/// The instant if it is later than the end and in range, else one soon after the end.
fn later(rng: &mut Rng, end: i64, instant: i64) -> i64 {
    if (end + 1..=LAST_INSTANT).contains(&instant) {
        return instant;
    }
    (end + rng.between(1, 20 * SECOND)).min(LAST_INSTANT)
}

/// A price that the stop is just met by, from an earlier bar's; or one of the season's kind.
fn next_price(rng: &mut Rng, sheet: &Sheet, anchor: &Bar, prices: Prices) -> f64 {
    let stop = sheet.stop_points() / 10_000.0;
    let price = match rng.below(8) {
        0 => anchor.price,
        1 => anchor.price * (1.0 - stop),
        2 => anchor.price * (1.0 + stop),
        3 => -anchor.price,
        _ => return price(rng, prices),
    };
    let beside = *rng.pick(&[price, price, price.next_up(), price.next_down()]);
    if beside.is_finite() { beside } else { f64::MAX }
}

fn price(rng: &mut Rng, prices: Prices) -> f64 {
    match prices {
        Prices::Market => rng.between(9_000, 11_000) as f64 / 100.0,
        Prices::Few => *rng.pick(&[100.0, 99.0, 101.0, 95.0, 105.0]),
        Prices::Edges => edge(rng),
        Prices::Bits => any_finite(rng),
    }
}

fn edge(rng: &mut Rng) -> f64 {
    let size = *rng.pick(&[
        0.0,
        0.0,
        1.0,
        5e-324,
        f64::MIN_POSITIVE,
        1e-300,
        1e300,
        f64::MAX,
        100.0,
        0.1,
    ]);
    if rng.once_in(3) { -size } else { size }
}

/// A double of any bits, without its highest exponent.
fn any_finite(rng: &mut Rng) -> f64 {
    let price = f64::from_bits(rng.bits());
    if price.is_finite() { price } else { 1.5 }
}
