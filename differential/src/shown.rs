//! What both sides show of a position, in one form: doubles by their bits, positions as -1, 0 and 1, operates by their codes.

use std::fmt::Debug;

#[derive(Clone, Copy, Debug, PartialEq)]
pub struct Time {
    pub instant: i64,
    pub offset: i32,
}

#[derive(Debug, PartialEq)]
pub struct Reference {
    pub time: Time,
    pub id: i32,
    pub price: u64,
    pub operate: u32,
    pub name: String,
}

#[derive(Debug, PartialEq)]
pub struct Record {
    pub time: Time,
    pub id: i32,
    pub price: u64,
    pub operate: u32,
    pub pos: i32,
    pub description: String,
}

#[derive(Debug, PartialEq)]
pub struct Hold {
    pub time: Time,
    pub pos: i32,
    pub price: u64,
    pub bp: Option<u64>,
}

#[derive(Debug, PartialEq)]
pub struct PairRow {
    pub symbol: String,
    pub mark: String,
    /// 1 for L, -1 for S.
    pub side: i32,
    pub opened: i64,
    pub closed: i64,
    pub from: u64,
    pub to: u64,
    pub ids: i64,
    pub sequence: String,
    pub days: u64,
    pub bp: Option<u64>,
}

#[derive(Debug, PartialEq)]
pub struct HoldRow {
    pub local: i64,
    pub pos: i32,
    pub price: u64,
    pub bp: Option<u64>,
}

/// A position's whole state and all its rows.
#[derive(Debug)]
pub struct Shown {
    pub pos: i32,
    pub changed: bool,
    pub end: Option<Time>,
    pub long_open: Option<Time>,
    pub short_open: Option<Time>,
    pub reference: Option<Reference>,
    pub records: Vec<Record>,
    pub holds: Vec<Hold>,
    pub pairs: Vec<PairRow>,
    pub hold_rows: Vec<HoldRow>,
}

impl Shown {
    /// Nothing, or where ours and theirs part first.
    pub fn same(&self, theirs: &Shown) -> Result<(), String> {
        same("position", &self.pos, &theirs.pos)?;
        same("changed", &self.changed, &theirs.changed)?;
        same("end", &self.end, &theirs.end)?;
        same("last long open", &self.long_open, &theirs.long_open)?;
        same("last short open", &self.short_open, &theirs.short_open)?;
        same("reference", &self.reference, &theirs.reference)?;
        same_lists("record", &self.records, &theirs.records)?;
        same_lists("hold", &self.holds, &theirs.holds)?;
        same_lists("pair row", &self.pairs, &theirs.pairs)?;
        same_lists("hold row", &self.hold_rows, &theirs.hold_rows)
    }
}

/// Nothing, or both values of what differs.
pub fn same<T: PartialEq + Debug>(what: &str, ours: &T, theirs: &T) -> Result<(), String> {
    if ours == theirs {
        return Ok(());
    }
    Err(format!("{what}\n  ours:   {ours:?}\n  theirs: {theirs:?}"))
}

fn same_lists<T: PartialEq + Debug>(what: &str, ours: &[T], theirs: &[T]) -> Result<(), String> {
    for index in 0..ours.len().max(theirs.len()) {
        same(
            &format!("{what} {index}"),
            &ours.get(index),
            &theirs.get(index),
        )?;
    }
    Ok(())
}
