//! Texts with faults: sheets, a bar's signals, signals and operates alone.

use inputs::{LINE_LIMIT, NAME_LIMIT, Rng, TEXT_LIMIT};

/// Fields that are wrong somewhere, or right at a limit.
const FIELDS: [&str; 27] = [
    "",
    "0",
    "1",
    "2",
    "01",
    "0000000001",
    "00000000001",
    "4102444800",
    "4102444801",
    "2147483647",
    "2147483648",
    "1000000",
    "1000001",
    "9999999999",
    "+1",
    "-1",
    " 1",
    "１",
    "LO",
    "lo",
    "持多",
    "HX",
    "a_b_c_d_e_f_101",
    "a_b_c_d_e_f_1000",
    "a_b_c_d_e_f_1001",
    "a_b_c_d_e_f",
    "a_b_c_d_e_f_-0",
];

/// Stop fields (document 02, W2): both sides of the limit, one and two decimals, and each kind that is none.
const STOPS: [&str; 38] = [
    "12.5",
    "12.50",
    "7.25",
    "0.05",
    "0.0",
    "00.10",
    "500.00",
    "999999.99",
    "1000000",
    "1000000.0",
    "1000000.00",
    "1000000.01",
    "1000000.1",
    "1000001.00",
    "42949672.96",
    "42949673.46",
    "9999999999.99",
    "0000000012.50",
    "00000000012.5",
    "12.",
    ".5",
    ".",
    "..",
    "12.500",
    "0.001",
    "12..5",
    "1.2.3",
    "12,5",
    "12:5",
    "+12.5",
    "-12.5",
    "12.+5",
    " 12.5",
    "12.5 ",
    "12.x",
    "1e2",
    "12．5",
    "12.５",
];

/// Seventh values of a first line (document 02, W3): both sides of the limit, what 16 bits would make right again, and
/// each kind that is none; the last are values too many.
const EVENINGS: [&str; 26] = [
    "0",
    "1",
    "180",
    "1438",
    "1439",
    "1440",
    "0000001439",
    "0000001440",
    "00000001439",
    "65535",
    "65536",
    "65716",
    "4294967476",
    "9999999999",
    "",
    "+180",
    "-1",
    " 180",
    "180 ",
    "180.0",
    "21:00",
    "1e2",
    "１８０",
    "180\r",
    "180|",
    "180|0",
];

/// Lots of an O line (document 02, W4): both sides of their range, what 16 or 32 bits would make right again, and each kind that is none; the
/// last are values too many.
const LOTS: [&str; 29] = [
    "1",
    "2",
    "5",
    "0005",
    "0000000005",
    "999",
    "1000",
    "0000001000",
    "0",
    "0000000000",
    "1001",
    "0000001001",
    "65536",
    "65537",
    "4294967297",
    "9999999999",
    "00000000005",
    "99999999999",
    "",
    "+5",
    "-1",
    " 5",
    "5 ",
    "1.5",
    "五",
    "x",
    "5\r",
    "5|",
    "5|5",
];

/// Scores of a clause (document 02, W8): both sides of their range and of the Rust's, what 16 or 32 bits would make right again, and each kind
/// that is none.
const SCORES: [&str; 26] = [
    "0",
    "-0",
    "100",
    "101",
    "255",
    "256",
    "999",
    "1000",
    "+1000",
    "00000000000000000001000",
    "1001",
    "+1001",
    "1256",
    "-1",
    "-1000",
    "65536",
    "66536",
    "2147483647",
    "2147483648",
    "4294968296",
    "",
    "+",
    "1,000",
    "1000.0",
    "１０００",
    "1000\r",
];

/// A copy of a text with a fault in its bytes, its fields, its lines or its length.
pub fn fault(rng: &mut Rng, text: &[u8]) -> Vec<u8> {
    match rng.below(12) {
        0 => (0..rng.below(80)).map(|_| rng.bits() as u8).collect(),
        1 => long(rng, text),
        2 => crowd(rng, text),
        3 => line_fault(rng, text),
        4 | 5 => field_fault(rng, text),
        6 if text.starts_with(b"P|") => stop_fault(rng, text),
        7 if text.starts_with(b"P|") => evening_fault(rng, text),
        8 if text.starts_with(b"P|") => lots_fault(rng, text),
        9 => score_fault(rng, text),
        _ => inputs::damage(rng, text),
    }
}

/// A text made as long as a text may be, or one byte longer; by bytes that are no UTF-8 now and then.
fn long(rng: &mut Rng, text: &[u8]) -> Vec<u8> {
    let mut copy = text.to_vec();
    copy.resize(
        TEXT_LIMIT + rng.below(2),
        *rng.pick(&[b'x', b'x', b'\n', 0xff]),
    );
    copy
}

/// A text with so many lines more that it has about as many as it may have. Added keys repeat where a bar's limit is passed.
fn crowd(rng: &mut Rng, text: &[u8]) -> Vec<u8> {
    let of_sheet = [
        "O|LO|o\n",
        "O|LO|o|1000\n",
        "X|SE|x\n",
        "A|a_b_c_d_e_f_0\n",
        "N|a_b_c_d_e_f_0\n",
    ];
    let count = *rng.pick(&[30, 31, 32, 33, LINE_LIMIT - 1, LINE_LIMIT, LINE_LIMIT + 1]);
    let lines: String = if text.starts_with(b"P|") {
        rng.pick(&of_sheet).repeat(count)
    } else {
        (0..count)
            .map(|n| format!("k{}|v\n", n % LINE_LIMIT))
            .collect()
    };
    [text, lines.as_bytes()].concat()
}

fn lines(text: &[u8]) -> Vec<Vec<u8>> {
    text.split_inclusive(|byte| *byte == b'\n')
        .map(<[u8]>::to_vec)
        .collect()
}

/// A line that is missing, doubled, moved or without its LF.
fn line_fault(rng: &mut Rng, text: &[u8]) -> Vec<u8> {
    let mut lines = lines(text);
    if lines.is_empty() {
        return b"\n".to_vec();
    }
    let (from, to) = (rng.below(lines.len()), rng.below(lines.len()));
    match rng.below(4) {
        0 => drop(lines.remove(from)),
        1 => lines.insert(to, lines[from].clone()),
        2 => lines.swap(from, to),
        _ => drop(lines.last_mut().and_then(Vec::pop)),
    }
    lines.concat()
}

/// A sheet with another stop field, right or wrong; or one whose stop has a byte changed, more or less.
fn stop_fault(rng: &mut Rng, text: &[u8]) -> Vec<u8> {
    let mut fields: Vec<Vec<u8>> = text
        .splitn(7, |byte| *byte == b'|')
        .map(<[u8]>::to_vec)
        .collect();
    if let Some(stop) = fields.get_mut(5) {
        *stop = match rng.below(3) {
            0 => inputs::damage(rng, stop),
            _ => rng.pick(&STOPS).as_bytes().to_vec(),
        };
    }
    fields.join(&b'|')
}

/// A sheet with another seventh value in its first line, right or wrong; or one that has a byte of it changed, more or
/// less.
fn evening_fault(rng: &mut Rng, text: &[u8]) -> Vec<u8> {
    let end = text.iter().position(|byte| *byte == b'\n');
    let (first, rest) = text.split_at(end.unwrap_or(text.len()));
    let mut fields: Vec<Vec<u8>> = first
        .split(|byte| *byte == b'|')
        .map(<[u8]>::to_vec)
        .collect();
    fields.resize(8, b"180".to_vec());
    fields[7] = match rng.below(3) {
        0 => inputs::damage(rng, &fields[7]),
        _ => rng.pick(&EVENINGS).as_bytes().to_vec(),
    };
    [fields.join(&b'|'), rest.to_vec()].concat()
}

/// A sheet with other lots in the line of one of its events, mostly of an opening, right or wrong; or one that has a byte of them changed, more
/// or less. Now and then the event's name or operate is wrong too.
fn lots_fault(rng: &mut Rng, text: &[u8]) -> Vec<u8> {
    let mut lines = lines(text);
    let tags: &[u8] = if rng.once_in(8) { b"OX" } else { b"O" };
    let events: Vec<usize> = (0..lines.len())
        .filter(|n| tags.contains(&lines[*n][0]))
        .collect();
    if events.is_empty() {
        return [text, b"O|LO|o|", rng.pick(&LOTS).as_bytes(), b"\n"].concat();
    }
    let line = &mut lines[*rng.pick(&events)];
    let mut fields: Vec<Vec<u8>> = line
        .strip_suffix(b"\n")
        .unwrap_or(line)
        .split(|byte| *byte == b'|')
        .map(<[u8]>::to_vec)
        .collect();
    fields.resize(4, b"5".to_vec());
    fields[3] = match rng.below(4) {
        0 => inputs::damage(rng, &fields[3]),
        _ => rng.pick(&LOTS).as_bytes().to_vec(),
    };
    match rng.below(12) {
        0 => fields[1] = b"lo".to_vec(),
        1 => fields[2] = "n".repeat(NAME_LIMIT + 1).into_bytes(),
        _ => {}
    }
    *line = [fields.join(&b'|'), b"\n".to_vec()].concat();
    lines.concat()
}

/// A text in which one line ends with another score: behind the last underscore of a clause of a sheet, of a bar's value or of a signal alone.
fn score_fault(rng: &mut Rng, text: &[u8]) -> Vec<u8> {
    let mut lines = lines(text);
    let has_score = |line: &Vec<u8>| line.contains(&b'_');
    let scored: Vec<usize> = (0..lines.len()).filter(|n| has_score(&lines[*n])).collect();
    if scored.is_empty() {
        return [text, b"A|a_b_c_d_e_f_", rng.pick(&SCORES).as_bytes(), b"\n"].concat();
    }
    let line = &mut lines[*rng.pick(&scored)];
    let ending: &[u8] = if line.ends_with(b"\n") { b"\n" } else { b"" };
    let place = line.iter().rposition(|byte| *byte == b'_').unwrap();
    *line = [&line[..=place], rng.pick(&SCORES).as_bytes(), ending].concat();
    lines.concat()
}

/// A field replaced by another.
fn field_fault(rng: &mut Rng, text: &[u8]) -> Vec<u8> {
    let mut lines = lines(text);
    if lines.is_empty() {
        return b"|\n".to_vec();
    }
    let place = rng.below(lines.len());
    let line = lines[place].strip_suffix(b"\n").unwrap_or(&lines[place]);
    let mut fields: Vec<Vec<u8>> = line
        .split(|byte| *byte == b'|')
        .map(<[u8]>::to_vec)
        .collect();
    let field = rng.below(fields.len());
    fields[field] = match rng.below(6) {
        0 => "n".repeat(NAME_LIMIT + rng.below(2)).into_bytes(),
        1 => inputs::signal(rng).into_bytes(),
        2 => inputs::operate(rng).into_bytes(),
        _ => rng.pick(&FIELDS).as_bytes().to_vec(),
    };
    lines[place] = [fields.join(&b'|'), b"\n".to_vec()].concat();
    lines.concat()
}
