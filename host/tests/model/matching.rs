//! Document 01, "Matching": a bar's signals, when a clause holds, when an event matches, the first match.

use super::texts::{Clause, Event, Kind, Sheet, WILDCARD, fields, read_score, read_text};
use super::{Answer, require};
use std::collections::HashMap;

const SIGNAL_LIMIT: usize = 256;

/// Each key's value.
pub type Signals<'a> = HashMap<&'a str, &'a str>;

/// Reads a bar's signals: 7, 1, then of each line 2, 12 and the count (7).
pub fn read_signals(bytes: &[u8]) -> Answer<Signals<'_>> {
    let mut signals = HashMap::new();
    for line in read_text(bytes)?.split_inclusive('\n') {
        let [key, value] = fields(line)?[..] else {
            return Err(2);
        };
        require(signals.insert(key, value).is_none(), 12)?;
        require(signals.len() <= SIGNAL_LIMIT, 7)?;
    }
    Ok(signals)
}

/// The three values and the score of a value that counts.
fn read_value(value: &str) -> Option<([&str; 3], i32)> {
    let parts: Vec<&str> = value.split('_').collect();
    let [v1, v2, v3, score] = parts[..] else {
        return None;
    };
    Some(([v1, v2, v3], read_score(score)?))
}

fn clause_holds(clause: &Clause, signals: &Signals) -> bool {
    let own = &clause.signal;
    let value = signals
        .get(own.key.as_str())
        .and_then(|value| read_value(value));
    value.is_some_and(|(values, score)| {
        let mut pairs = own.values.iter().zip(values);
        score >= own.score && pairs.all(|(wanted, value)| wanted == WILDCARD || wanted == value)
    })
}

fn event_matches(event: &Event, signals: &Signals) -> bool {
    let of_kind = |kind: Kind| {
        event
            .clauses
            .iter()
            .filter(move |clause| clause.kind == kind)
    };
    let holds = |clause: &Clause| clause_holds(clause, signals);
    !of_kind(Kind::Not).any(holds)
        && of_kind(Kind::All).all(holds)
        && (of_kind(Kind::Any).any(holds) || of_kind(Kind::Any).next().is_none())
}

/// The index of the first event that matches, openings before exits.
pub fn first_match(sheet: &Sheet, signals: &Signals) -> Option<u32> {
    let of_exit = |exit: bool| {
        let found = |event: &Event| event.exit == exit && event_matches(event, signals);
        sheet.events.iter().position(found)
    };
    of_exit(false)
        .or_else(|| of_exit(true))
        .map(|event| event as u32)
}
