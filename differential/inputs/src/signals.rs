//! A bar's signals: lines that make a chosen event match or just miss, and others beside them.

use crate::season::{Clause, Kind, Sheet};
use crate::{LINE_LIMIT, Rng, TEXT_LIMIT, words};

type Lines = Vec<(String, String)>;

/// The signals of a bar under a sheet, their keys distinct, within the limits of a text.
pub fn signals(rng: &mut Rng, sheet: &Sheet) -> Lines {
    let mut lines = Lines::new();
    if !sheet.events.is_empty() && !rng.once_in(6) {
        aim(rng, sheet, &mut lines);
    }
    if rng.once_in(2) {
        around(rng, sheet, &mut lines);
    }
    if rng.once_in(3) {
        strays(rng, &mut lines);
    }
    if rng.once_in(500) {
        fill(rng, &mut lines);
    }
    lines
}

/// Adds a line, unless its key is there or the text would be too long.
fn add(lines: &mut Lines, key: String, value: String) {
    let length: usize = lines.iter().map(|(k, v)| k.len() + v.len() + 2).sum();
    let fits = length + key.len() + value.len() + 2 <= TEXT_LIMIT && lines.len() < LINE_LIMIT;
    if fits && lines.iter().all(|(k, _)| *k != key) {
        lines.push((key, value));
    }
}

/// Lines that mostly make one event of the sheet match.
fn aim(rng: &mut Rng, sheet: &Sheet, lines: &mut Lines) {
    let event = rng.pick(&sheet.events);
    for clause in &event.clauses {
        let wanted = clause.kind != Kind::Not;
        let met = if rng.once_in(8) { !wanted } else { wanted };
        if met || rng.once_in(2) {
            add(lines, clause.key(), value_for(rng, clause, met));
        }
    }
}

/// Lines for some more clauses of the sheet, met or just missed.
fn around(rng: &mut Rng, sheet: &Sheet, lines: &mut Lines) {
    for clause in sheet.clauses() {
        if rng.once_in(3) {
            let met = rng.once_in(2);
            add(lines, clause.key(), value_for(rng, clause, met));
        }
    }
}

/// Lines with keys and values from nowhere: wildcards written out, any number of parts, keys with a part too many.
fn strays(rng: &mut Rng, lines: &mut Lines) {
    for _ in 0..1 + rng.below(3) {
        let parts = 1 + rng.below(4);
        let key = join(rng, parts, words::key_part);
        let parts = 1 + rng.below(5);
        let value = join(rng, parts, words::value);
        add(lines, key, value);
    }
}

/// Lines up to the most that a bar may have, or up to a text's last byte.
fn fill(rng: &mut Rng, lines: &mut Lines) {
    let long = rng.once_in(2);
    while lines.len() < LINE_LIMIT {
        let value = if long {
            "v".repeat(rng.below(200))
        } else {
            String::new()
        };
        let before = lines.len();
        add(lines, format!("s{before}"), value);
        if lines.len() == before {
            break;
        }
    }
}

fn join(rng: &mut Rng, parts: usize, part: fn(&mut Rng) -> String) -> String {
    (0..parts).map(|_| part(rng)).collect::<Vec<_>>().join("_")
}

/// A value that meets a clause, or misses it in one way.
fn value_for(rng: &mut Rng, clause: &Clause, met: bool) -> String {
    let mut parts: Vec<String> = clause.parts[3..6]
        .iter()
        .map(|part| bar_value(rng, part))
        .collect();
    parts.push(score_for(rng, clause, met));
    if !met {
        match rng.below(4) {
            0 => parts[rng.below(3)] = words::value(rng),
            1 => parts.truncate(3),
            2 => parts.push(words::clause_score(rng)),
            _ => {}
        }
    }
    parts.join("_")
}

/// The clause's own value, or any where it is wild.
fn bar_value(rng: &mut Rng, part: &str) -> String {
    if part == words::ANY {
        words::value(rng)
    } else {
        part.to_string()
    }
}

/// A score from the clause's own upward, or one below it or hard to read.
fn score_for(rng: &mut Rng, clause: &Clause, met: bool) -> String {
    let own: i64 = clause.parts[6]
        .parse()
        .expect("a clause's score is a number");
    match (met, rng.below(4)) {
        (true, 0) => (own + rng.between(0, 50)).to_string(),
        (true, 1) => format!("+{own:04}"),
        (true, _) => own.to_string(),
        (false, 0) => words::odd_score(rng),
        (false, _) => (own - 1).to_string(),
    }
}
