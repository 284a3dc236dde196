//! What was done, counted by name.

use std::collections::BTreeMap;
use std::fmt;

#[derive(Clone, Default)]
pub struct Counts(BTreeMap<&'static str, u64>);

impl Counts {
    pub fn add(&mut self, what: &'static str, count: usize) {
        *self.0.entry(what).or_default() += count as u64;
    }

    pub fn get(&self, what: &'static str) -> u64 {
        self.0.get(what).copied().unwrap_or(0)
    }

    pub fn join(&mut self, other: &Counts) {
        for (what, count) in &other.0 {
            *self.0.entry(what).or_default() += count;
        }
    }
}

/// The things that each input is made of, in one line.
impl fmt::Display for Counts {
    fn fmt(&self, f: &mut fmt::Formatter<'_>) -> fmt::Result {
        const LINE: [&str; 13] = [
            "inputs",
            "bars",
            "late",
            "records",
            "holds",
            "pairs",
            "saves",
            "restores",
            "signals",
            "signals left out",
            "operates",
            "damaged",
            "refused",
        ];
        let parts: Vec<String> = LINE
            .iter()
            .map(|what| format!("{} {what}", self.get(what)))
            .collect();
        f.write_str(&parts.join(", "))
    }
}
