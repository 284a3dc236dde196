//! Signals and operates alone: right ones and near misses.

use crate::{Rng, words};

/// A text that is a signal, or nearly one.
pub fn signal(rng: &mut Rng) -> String {
    let mut parts: Vec<String> = (0..3).map(|_| words::key_part(rng)).collect();
    parts.extend((0..3).map(|_| words::value(rng)));
    parts.push(score(rng));
    match rng.below(10) {
        0 => parts.truncate(rng.below(7)),
        1 => parts.insert(rng.below(7), words::value(rng)),
        _ => {}
    }
    parts.join("_")
}

fn score(rng: &mut Rng) -> String {
    match rng.below(5) {
        0 => words::odd_score(rng),
        1 => rng
            .pick(&["100", "1001", "-1", "+100", "0000000000100", "+1001"])
            .to_string(),
        2 => words::high_score(rng),
        _ => words::clause_score(rng),
    }
}

/// A text that is an operate, or nearly one.
pub fn operate(rng: &mut Rng) -> String {
    let [latin, chinese] = *rng.pick(&words::OPERATES);
    match rng.below(8) {
        0 => latin.to_lowercase(),
        1 => format!("{latin} "),
        2 => format!("{chinese}#"),
        3 => chinese.chars().take(1).collect(),
        4 => rng
            .pick(&["", "LL", "Lo", "持", "多开", "H", "任意"])
            .to_string(),
        5 => latin.to_string(),
        _ => chinese.to_string(),
    }
}
