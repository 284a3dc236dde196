//! The rows of a book as the run program prints them.

use position_book::{Book, Hold, Pair, Pos, Refusal, Side, Table};

/// -1, 0 or 1.
pub fn sign(pos: Pos) -> i32 {
    pos as i32 - 1
}

fn yielded(bp: Option<f64>) -> String {
    bp.map_or("-".to_string(), |x| format!("{:016x}", x.to_bits()))
}

fn pair_line(p: &Pair) -> String {
    let side = if p.side == Side::Long { 'L' } else { 'S' };
    let (from, to, days) = (p.from.to_bits(), p.to.to_bits(), p.days.to_bits());
    format!(
        "R|{}|{}|{side}|{}|{}|{from:016x}|{to:016x}|{}|{}|{days:016x}|{}|{}\n",
        p.symbol,
        p.mark,
        p.opened.micros(),
        p.closed.micros(),
        p.ids,
        p.sequence,
        yielded(p.bp),
        p.lots
    )
}

fn hold_line(h: &Hold) -> String {
    format!(
        "H|{}|{}|{:016x}|{}\n",
        h.local.micros(),
        sign(h.pos),
        h.price.to_bits(),
        yielded(h.bp)
    )
}

/// The lines of a book's pairs and holds.
pub fn listed(table: &Table, book: &Book) -> Result<String, Refusal> {
    let pairs: String = book.pairs(table)?.map(|p| pair_line(&p)).collect();
    let holds: String = book.holds(table)?.map(|h| hold_line(&h)).collect();
    Ok(pairs + &holds)
}
