//! What the inputs promise: the same from the same seed, within document 01's limits, and small when shrunk.

use inputs::*;
use std::collections::HashSet;

fn seasons(count: u64) -> impl Iterator<Item = Season> {
    (0..count).map(|seed| season(&mut Rng::new(seed)))
}

fn lots_seasons(count: u64) -> impl Iterator<Item = Season> {
    (0..count).map(|seed| lots_season(&mut Rng::new(seed)))
}

fn full_seasons(count: u64) -> impl Iterator<Item = Season> {
    (0..count).map(|seed| full_season(&mut Rng::new(seed)))
}

#[test]
fn the_same_seed_gives_the_same_season() {
    assert!(seasons(200).eq(seasons(200)));
    assert!(lots_seasons(200).eq(lots_seasons(200)));
    assert!(full_seasons(200).eq(full_seasons(200)));
}

#[test]
fn sheets_are_within_the_limits() {
    let mut longest = 0;
    for Season { sheet, .. } in lots_seasons(5_000).chain(full_seasons(5_000)) {
        longest = longest.max(sheet.text().len());
        assert!(sheet.events.len() <= EVENT_LIMIT && sheet.clauses().count() <= LINE_LIMIT);
        assert!(sheet.events.is_sorted_by_key(|event| event.exit));
        assert!(sheet.name.len() <= NAME_LIMIT && sheet.symbol.len() <= NAME_LIMIT);
        assert!((0..=100_000_000).contains(&sheet.stop));
        assert!((0..=LAST_EVENING).contains(&sheet.evening_minutes()));
        assert!(
            sheet
                .events
                .iter()
                .all(|event| !event.exit || event.lots.is_none())
        );
    }
    assert_eq!(longest, TEXT_LIMIT);
}

#[test]
fn a_stop_field_says_the_stop() {
    let mut decimals = [0; 3];
    for Season { sheet, .. } in seasons(5_000) {
        let text = sheet.text();
        let field = text.split('|').nth(5).expect("a stop field");
        let behind = field.split_once('.').map_or("", |(_, behind)| behind);
        decimals[behind.len()] += 1;
        assert_eq!(field.parse(), Ok(sheet.stop_points()));
    }
    assert!(decimals.iter().all(|count| *count > 500), "{decimals:?}");
}

/// The seventh value of a sheet's first line.
fn evening_field(sheet: &Sheet) -> Option<String> {
    let text = sheet.text();
    let first = text.split('\n').next().expect("a first line");
    first.split('|').nth(7).map(str::to_string)
}

#[test]
fn the_days_of_a_season_open_at_midnight() {
    let fields: Vec<_> = seasons(5_000)
        .map(|season| evening_field(&season.sheet))
        .collect();
    let count = |field| fields.iter().filter(|f| f.as_deref() == field).count();
    let counts = [None, Some("0"), Some("0000000000")].map(count);
    assert!(counts.iter().all(|count| *count > 100), "{counts:?}");
    assert_eq!(counts.iter().sum::<usize>(), 5_000);
}

#[test]
fn a_full_season_says_any_evening() {
    let mut said = HashSet::new();
    for Season { sheet, .. } in full_seasons(5_000) {
        let minutes = evening_field(&sheet).map(|field| field.parse().expect("a number"));
        assert_eq!(minutes, sheet.evening);
        said.insert(minutes);
    }
    let named = [None, Some(0), Some(1), Some(180), Some(LAST_EVENING)];
    assert!(named.iter().all(|evening| said.contains(evening)));
    assert!(said.len() > 300, "{}", said.len());
}

/// Scores of a sheet's clauses.
fn scores(sheet: &Sheet) -> impl Iterator<Item = i64> {
    let fields = sheet.clauses().map(|clause| &clause.parts[6]);
    fields.map(|field| field.parse().expect("a score is a number"))
}

#[test]
fn the_rust_takes_the_scores_of_a_season() {
    let mut given = seasons(5_000).chain(lots_seasons(5_000));
    assert!(given.all(|season| scores(&season.sheet).all(|n| (0..=RUST_SCORE_LIMIT).contains(&n))));
}

#[test]
fn a_full_season_has_any_score() {
    let mut said = HashSet::new();
    full_seasons(5_000).for_each(|season| said.extend(scores(&season.sheet)));
    assert!(said.iter().all(|n| (0..=SCORE_LIMIT).contains(n)));
    assert!([0, 100, 101, 999, 1_000].iter().all(|n| said.contains(n)));
    assert!(said.len() > 900, "{}", said.len());
}

/// The third values of a sheet's events.
fn lots_fields(sheet: &Sheet) -> Vec<String> {
    let text = sheet.text();
    let events = text.lines().filter(|line| line.starts_with(['O', 'X']));
    let fields = events.filter_map(|line| line.split('|').nth(3));
    fields.map(str::to_string).collect()
}

#[test]
fn an_opening_says_any_lots() {
    assert!(seasons(5_000).all(|season| lots_fields(&season.sheet).is_empty()));
    let (mut said, mut padded, mut silent) = (HashSet::new(), 0, 0);
    for Season { sheet, .. } in lots_seasons(5_000).chain(full_seasons(5_000)) {
        let fields = lots_fields(&sheet);
        let lots: Vec<i64> = sheet.events.iter().filter_map(|event| event.lots).collect();
        let read: Result<Vec<i64>, _> = fields.iter().map(|field| field.parse()).collect();
        assert_eq!(read.as_ref(), Ok(&lots));
        padded += fields.iter().filter(|field| field.len() == 10).count();
        silent += sheet
            .events
            .iter()
            .filter(|event| !event.exit && event.lots.is_none())
            .count();
        said.extend(lots);
    }
    assert!(said.iter().all(|lots| (1..=LOTS_LIMIT).contains(lots)));
    assert!(
        said.len() > 900 && padded > 100 && silent > 1_000,
        "{} {padded} {silent}",
        said.len()
    );
    assert!([1, 2, 999, 1_000].iter().all(|lots| said.contains(lots)));
}

/// Without its lots a season is the one that the Rust is given.
#[test]
fn lots_change_nothing_else() {
    for (season, mut with_lots) in seasons(2_000).zip(lots_seasons(2_000)) {
        with_lots
            .sheet
            .events
            .iter_mut()
            .for_each(|event| event.lots = None);
        assert_eq!(season, with_lots);
    }
}

/// At both sides of 21:00, where it opens the next trading day.
#[test]
fn bars_stand_at_the_openings_of_trading_days() {
    let (minute, day) = (60_000_000, 86_400_000_000);
    let mut sides = [0; 2];
    for season in full_seasons(5_000).filter(|season| season.sheet.evening == Some(180)) {
        for bar in season.bars() {
            let ahead = bar.instant + bar.offset * 1_000_000 + 180 * minute;
            match ahead.rem_euclid(day) {
                0 => sides[0] += 1,
                into if into == day - 1 => sides[1] += 1,
                _ => {}
            }
        }
    }
    assert!(sides.iter().all(|count| *count > 100), "{sides:?}");
}

#[test]
fn bars_are_within_the_limits() {
    let mut most = 0;
    for season in seasons(5_000).chain(full_seasons(5_000)) {
        for bar in season.bars() {
            most = most.max(bar.signals.len());
            let keys: HashSet<_> = bar.signals.iter().map(|(key, _)| key).collect();
            assert_eq!(keys.len(), bar.signals.len());
            assert!(bar.signals_text().len() <= TEXT_LIMIT && bar.price.is_finite());
            assert!((0..=LAST_ID).contains(&bar.id) && (0..=LAST_INSTANT).contains(&bar.instant));
            assert!(bar.offset.abs() <= LAST_OFFSET);
        }
    }
    assert_eq!(most, LINE_LIMIT);
}

#[test]
fn damage_stays_near_its_origin() {
    let mut rng = Rng::new(1);
    let right = b"P|soy|M1|0|5|100|0\n";
    let copies: HashSet<_> = (0..1_000).map(|_| damage(&mut rng, right)).collect();
    assert!(copies.len() > 500);
    assert!(copies.iter().all(|copy| copy.len() <= right.len() + 120));
}

#[test]
fn a_season_shrinks_to_what_is_asked_of_it() {
    let long = seasons(100)
        .find(|season| season.bars().count() > 10)
        .expect("a long season");
    let small = shrink(long, &mut |season| season.bars().count() >= 2);
    assert_eq!(
        small.text(),
        "P|n|s|0|0|0|1\n-\nB|0|0|0|3ff0000000000000\nB|1|86400000000|0|3ff0000000000000\n"
    );
}
