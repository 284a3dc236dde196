//! Rows in blocks are the rows asked one by one, over several blocks of a long book, and there are as many as the counts say.

use position_book::{Bar, Book, Hold, Instant, LocalTime, Pair, Pos, Refusal, Side, Table, raw};

/// A book of several blocks.
fn long_book(table: &Table) -> Result<Book, Refusal> {
    book_of(table, 60_000)
}

/// A book of so many bars, which open and close by turns.
fn book_of(table: &Table, bars: i64) -> Result<Book, Refusal> {
    let mut book = Book::fresh(bars as usize)?;
    for id in 0..bars {
        let bar = Bar {
            id,
            instant: Instant(id * 1_000_000),
            offset: 28_800,
            price: 3_000.0 + (id * 7 % 100) as f64,
        };
        let signals = ["a_b_c|up_x_y_1\n", "a_b_c|down_x_y_1\n", ""][id as usize % 3];
        book.feed(table, bar, signals)?;
    }
    Ok(book)
}

fn table() -> Result<Table, Refusal> {
    Table::compile(concat!(
        "P|豆粕套保|M2701|0|2|100|1\n",
        "O|LO|开多#上行|1000\nA|a_b_c_up_任意_任意_0\n",
        "O|SO|SO#下行|3\nA|a_b_c_down_任意_任意_0\n",
    ))
}

/// A yield, where it is present.
fn yielded(present: u32, bp: f64) -> Option<f64> {
    (present == 1).then_some(bp)
}

/// The local time of so many microseconds.
fn local(micros: i64) -> LocalTime {
    Instant(micros).local(0)
}

/// Pair row number i, asked alone.
fn pair(table: &Table, book: &Book, i: i64) -> Option<Pair> {
    let mut buffer = [0; raw::ROW_BUFFER];
    let a = raw::pair_row(table.as_bytes(), book.as_bytes(), i, &mut buffer);
    let text = |from: usize, n: usize| String::from_utf8(buffer[from..from + n].to_vec()).unwrap();
    (a.number == 0).then(|| Pair {
        symbol: text(0, a.symbol),
        mark: text(a.symbol, a.mark),
        sequence: text(a.symbol + a.mark, a.sequence),
        side: if a.side == 1 { Side::Long } else { Side::Short },
        opened: local(a.opened),
        closed: local(a.closed),
        from: a.from,
        to: a.to,
        ids: a.ids,
        days: a.days,
        bp: yielded(a.present, a.bp),
        lots: a.lots,
    })
}

/// Hold row number i, asked alone.
fn hold(table: &Table, book: &Book, i: i64) -> Option<Hold> {
    let a = raw::hold_row(table.as_bytes(), book.as_bytes(), i);
    (a.number == 0).then(|| Hold {
        local: local(a.local),
        pos: [Pos::Short, Pos::Flat, Pos::Long][(a.pos + 1) as usize],
        price: a.price,
        bp: yielded(a.present, a.bp),
    })
}

/// Some of so many row numbers: spread ones, those around the end of the first block of hold rows, and the last.
fn sample(rows: usize) -> impl Iterator<Item = usize> {
    let first_block = (1 << 20) / raw::HOLD_ROW;
    let numbers = (0..rows)
        .step_by(487)
        .chain(first_block - 2..first_block + 3);
    numbers.chain([rows - 1]).filter(move |i| *i < rows)
}

#[test]
fn blocks_have_the_single_rows() -> Result<(), Refusal> {
    let table = table()?;
    let book = long_book(&table)?;
    let pairs: Vec<Pair> = book.pairs(&table)?.collect();
    let holds: Vec<Hold> = book.holds(&table)?.collect();
    assert_eq!(pairs.len(), book.count_pairs(&table)?);
    assert_eq!(holds.len(), book.len());
    let lots = |side| if side == Side::Long { 1_000 } else { 3 };
    assert!(pairs.iter().all(|pair| pair.lots == lots(pair.side)));
    for i in sample(pairs.len()) {
        assert_eq!(pair(&table, &book, i as i64).as_ref(), Some(&pairs[i]));
    }
    for i in sample(holds.len()) {
        assert_eq!(hold(&table, &book, i as i64).as_ref(), Some(&holds[i]));
    }
    assert_eq!(pair(&table, &book, pairs.len() as i64), None);
    assert_eq!(hold(&table, &book, holds.len() as i64), None);
    Ok(())
}

/// A book whose hold rows fill the first block to its last byte, one with a row less, and one with a row more.
#[test]
fn a_full_block_is_not_the_end() -> Result<(), Refusal> {
    let table = table()?;
    let first_block = (1 << 20) / raw::HOLD_ROW;
    for bars in [first_block - 1, first_block, first_block + 1] {
        let book = book_of(&table, bars as i64)?;
        let mut holds = book.holds(&table)?;
        assert_eq!(holds.by_ref().count(), bars);
        assert_eq!(holds.next(), None);
    }
    Ok(())
}

#[test]
fn an_empty_book_has_no_rows() -> Result<(), Refusal> {
    let table = table()?;
    let book = Book::fresh(1)?;
    let mut pairs = book.pairs(&table)?;
    assert_eq!((pairs.next(), pairs.next()), (None, None));
    assert_eq!(book.holds(&table)?.count(), 0);
    assert_eq!(book.count_pairs(&table)?, 0);
    Ok(())
}
