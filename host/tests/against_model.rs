//! Every exported call against an independent model of documents 01 and 02 (`model/`), on valid, damaged and random
//! arguments: number, values and all bytes. POSITION_BOOK_ROUNDS sets another number of rounds; POSITION_BOOK_SEED runs
//! the round of one seed alone.

mod against;
mod model;

use against::round::round;
use against::{
    Arguments, CALLS, COMPILE, Call, Comparison, FEED, FEED_LINE, FRESH, HOLD_ROW, RESTORE, SAVE,
};
use position_book::raw::{TABLE_LENGTH, book_length};
use std::collections::BTreeSet;

/// How many rounds are run, with the seeds from 1 on.
const ROUNDS: u64 = 8_000;

/// A number from the environment.
fn setting(name: &str) -> Option<u64> {
    let text = std::env::var(name).ok()?;
    Some(text.parse().expect("a whole number"))
}

#[test]
fn every_call_is_the_models() {
    let mut comparison = Comparison::default();
    if let Some(seed) = setting("POSITION_BOOK_SEED") {
        return round(&mut comparison, seed);
    }
    for seed in 1..=setting("POSITION_BOOK_ROUNDS").unwrap_or(ROUNDS) {
        round(&mut comparison, seed);
    }
    reached(&comparison);
}

/// Each call must have given each number that it can give, and no other; each reason must have decided a bar.
fn reached(comparison: &Comparison) {
    for call in CALLS {
        let counts = comparison.counts[call.name];
        println!("{:12} {}", call.name, show(&counts));
        let given: Vec<usize> = (0..counts.len()).filter(|n| counts[*n] > 0).collect();
        assert_eq!(given, call.numbers, "the numbers that {} gave", call.name);
    }
    println!("decided by   {}", show(&comparison.decisions));
    assert!(comparison.decisions.iter().all(|count| *count > 0));
}

fn show(counts: &[u64]) -> String {
    let given = counts.iter().enumerate().filter(|(_, count)| **count > 0);
    let shown = given.map(|(number, count)| format!(" {number}: {count}"));
    shown.collect()
}

#[test]
fn every_exported_call_is_compared() {
    let declared = include_str!("../src/raw.rs").lines().filter_map(|line| {
        let rest = line.trim().strip_prefix("pub fn position_book_")?;
        rest.split('(').next()
    });
    let compared: BTreeSet<&str> = CALLS.iter().map(|call| call.name).collect();
    assert_eq!(declared.collect::<BTreeSet<_>>(), compared);
}

#[test]
fn the_largest_book_is_the_models() {
    assert_eq!(book_answers(1_000_000), [0, 0, 0, 0, 0, 0]);
}

#[test]
fn a_larger_book_is_refused() {
    assert_eq!(book_answers(1_000_001), [8, 8, 8, 8, 8, 8]);
}

/// What is answered of a book with room for so many bars.
fn book_answers(bars: usize) -> Vec<u64> {
    let mut comparison = Comparison::default();
    let sheet = Arguments::compiling(b"P|n|s|0|0|0|1\nO|LO|o\n", vec![0; TABLE_LENGTH]);
    let (_, mut arguments) = comparison.run(&COMPILE, &sheet);
    arguments.text.clear();
    arguments.line = b"1,1970-01-02 00:00:00+00:00,1".to_vec();
    arguments.book = vec![1; book_length(bars)];
    arguments.image = vec![1; book_length(bars)];
    let answer = |call: &Call| {
        let (number, after) = comparison.run(call, &arguments);
        arguments = after;
        number
    };
    [FRESH, FEED, FEED_LINE, SAVE, RESTORE, HOLD_ROW]
        .iter()
        .map(answer)
        .collect()
}
