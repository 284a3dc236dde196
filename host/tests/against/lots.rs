//! Lots at the boundaries of document 02, W4, on both sides: an O line's third value with what it says, the order of
//! refusals around it, and the kinds of events in a table. `lots_kept` has what a book keeps of them.

use super::{Arguments, Comparison, EVENT_NAME, every_byte_at_every_place};
use inputs::{EVENT_LIMIT, NAME_LIMIT};

/// Third values that are read, and of each the lots.
const READ: [(&str, u16); 16] = [
    ("1", 1),
    ("01", 1),
    ("0000000001", 1),
    ("2", 2),
    ("5", 5),
    ("0005", 5),
    ("0000000005", 5),
    ("127", 127),
    ("128", 128),
    ("129", 129),
    ("255", 255),
    ("256", 256),
    ("257", 257),
    ("999", 999),
    ("1000", 1_000),
    ("0000001000", 1_000),
];

/// Third values that give 18.
const OUTSIDE: [&str; 15] = [
    "0",
    "00",
    "0000000000",
    "1001",
    "0000001001",
    "1024",
    "2000",
    "32769",
    "65535",
    "65536",
    "65537",
    "4294967296",
    "4294967297",
    "4294968296",
    "9999999999",
];

/// Third values that give 3.
const NO_LOTS: [&str; 28] = [
    "",
    " ",
    "00000000000",
    "00000000001",
    "00000001001",
    "10000000000",
    "99999999999",
    "+1",
    "+",
    "-1",
    "-0",
    "-",
    " 1",
    "1 ",
    "1 0",
    "1.5",
    "1.0",
    "1.",
    ".5",
    "1,000",
    "1_0",
    "1e2",
    "0x5",
    "x",
    "５",
    "五",
    "5\r",
    "\r",
];

const FIRST: &str = "P|n|s|0|9|100|0\n";
const CLAUSE: &str = "\nA|k_k_k_up_v_v_0\n";
/// Where the events' kinds stand in the table of a sheet with two of them.
const KINDS: [usize; 2] = [80, 92];

/// What compiling a sheet of these events gives on both sides: the number, and the arguments at exit.
fn compiled(comparison: &mut Comparison, events: &[u8]) -> (u64, Arguments) {
    comparison.compile(&[FIRST.as_bytes(), events].concat())
}

/// The same of an opening with a third value.
fn with_field(comparison: &mut Comparison, field: &[u8]) -> (u64, Arguments) {
    compiled(
        comparison,
        &[b"O|LO|lo|", field, CLAUSE.as_bytes()].concat(),
    )
}

fn kind(table: &[u8], at: usize) -> u16 {
    u16::from_le_bytes([table[at], table[at + 1]])
}

fn set_kind(table: &mut [u8], at: usize, kind: u16) {
    table[at..at + 2].copy_from_slice(&kind.to_le_bytes());
}

#[test]
fn lots_are_read_as_they_say() {
    let mut comparison = Comparison::default();
    let without = compiled(&mut comparison, format!("O|LO|lo{CLAUSE}").as_bytes());
    assert_eq!((without.0, kind(&without.1.table, 80)), (0, 0));
    for (field, lots) in READ {
        let (number, after) = with_field(&mut comparison, field.as_bytes());
        let mut expected = without.1.table.clone();
        set_kind(&mut expected, 80, 2 * (lots - 1));
        assert_eq!(number, 0, "{field}");
        assert!(after.table == expected, "{field}");
    }
}

#[test]
fn other_lots_are_refused_by_their_numbers() {
    let mut comparison = Comparison::default();
    let lists: [(u64, &[&str]); 2] = [(3, &NO_LOTS), (18, &OUTSIDE)];
    for (expected, fields) in lists {
        for field in fields {
            let (number, _) = with_field(&mut comparison, field.as_bytes());
            assert_eq!(number, expected, "{field:?}");
        }
    }
}

#[test]
fn every_number_of_lots_is_read_or_refused() {
    let mut comparison = Comparison::default();
    for lots in 0..=3_000 {
        for field in [format!("{lots}"), format!("{lots:010}")] {
            let (number, after) = with_field(&mut comparison, field.as_bytes());
            let fine = (1..=1_000).contains(&lots);
            assert_eq!(number, if fine { 0 } else { 18 }, "{field}");
            assert!(!fine || kind(&after.table, 80) == 2 * (lots - 1), "{field}");
        }
    }
}

#[test]
fn every_byte_at_every_place_of_lots_is_the_models() {
    let mut comparison = Comparison::default();
    every_byte_at_every_place(&[&b"5"[..], b"1000", b"0000001000"], |field| {
        with_field(&mut comparison, field);
    });
}

/// An O line has two values or three, an X line two; the count comes before each of them, and so does a missing LF.
#[test]
fn other_counts_of_values_are_refused_first() {
    let mut comparison = Comparison::default();
    for (tag, counts) in [("O", &[3, 4][..]), ("X", &[3])] {
        for count in 1..=8 {
            let mut fields = vec![tag, "LO", "lo", "5"];
            fields.resize(count, "x");
            let line = fields.join("|");
            let (number, _) = compiled(&mut comparison, format!("{line}{CLAUSE}").as_bytes());
            assert_eq!(
                number,
                if counts.contains(&count) { 0 } else { 2 },
                "{line}"
            );
        }
    }
    for field in READ
        .map(|(field, _)| field)
        .iter()
        .chain(&OUTSIDE)
        .chain(&NO_LOTS)
    {
        let lines = [
            format!("X|LE|x|{field}\n"),
            format!("O|LO|o|{field}"),
            format!("O|lo|o|{field}|\n"),
            format!("X|LE|x\nO|LO|o|{field}\n"),
        ];
        for line in lines {
            assert_eq!(compiled(&mut comparison, line.as_bytes()).0, 2, "{line}");
        }
    }
}

/// The operate, the name, the lots, the count of events: of all faults of a line the first is told.
#[test]
fn of_all_faults_the_first_is_told() {
    let mut comparison = Comparison::default();
    let faults = |set: usize| [1, 2, 4].map(|bit| set & bit != 0);
    for (set, (field, number)) in (0..8).flat_map(|set| {
        let fields = [("5", 0), ("", 3), ("x", 3), ("0", 18), ("1001", 18)];
        fields.map(|field| (set, field))
    }) {
        let [operate, name, many] = faults(set);
        let line = format!(
            "O|{}|{}|{field}\n",
            if operate { "lo" } else { "LO" },
            "n".repeat(NAME_LIMIT + usize::from(name)),
        );
        let before = if many { EVENT_LIMIT } else { EVENT_LIMIT - 1 };
        let events = "O|SO|o|7\n".repeat(before) + &line + "A|later\n";
        let later = if many { 7 } else { 5 };
        let told = [(operate, 4), (name, 7), (number > 0, number), (true, later)];
        let first = told.iter().find(|(has, _)| *has).unwrap().1;
        assert_eq!(
            compiled(&mut comparison, events.as_bytes()).0,
            first,
            "{line}"
        );
    }
}

/// A book of two bars by a table with an opening and an exit.
fn with_book(comparison: &mut Comparison) -> Arguments {
    let events = format!("O|LO|lo|5{CLAUSE}X|LE|le{CLAUSE}");
    let (_, table) = compiled(comparison, events.as_bytes());
    comparison.two_bars(table, "k_k_k|up_v_v_0\n")
}

/// Whether an event may have a kind: an exit 1 lot, an opening 1 to 1,000.
fn is_kind(kind: u16) -> bool {
    kind == 1 || kind % 2 == 0 && kind <= 1_998
}

#[test]
fn all_calls_take_or_refuse_a_table_by_its_kinds() {
    let mut comparison = Comparison::default();
    let book = with_book(&mut comparison);
    let kinds = [
        0, 1, 2, 3, 9, 255, 256, 257, 1_996, 1_997, 1_998, 1_999, 2_000, 2_001, 32_768,
    ];
    for (at, kind) in KINDS
        .into_iter()
        .flat_map(|at| kinds.map(|kind| (at, kind)))
    {
        let mut arguments = book.clone();
        set_kind(&mut arguments.table, at, kind);
        comparison.all_judge(&arguments, is_kind(kind), &format!("{kind} at {at}"));
    }
}

#[test]
fn every_kind_of_an_event_is_judged() {
    let mut comparison = Comparison::default();
    let book = with_book(&mut comparison);
    for at in KINDS {
        let mut arguments = Arguments {
            table: book.table.clone(),
            buffer: vec![7; NAME_LIMIT],
            ..Arguments::default()
        };
        for kind in (0..2_100).chain((2_100..=65_535).step_by(17)) {
            set_kind(&mut arguments.table, at, kind);
            let (number, _) = comparison.run(&EVENT_NAME, &arguments);
            assert_eq!(number, if is_kind(kind) { 0 } else { 9 }, "{kind} at {at}");
        }
    }
}
