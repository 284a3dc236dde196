//! Signals and operates alone, and damaged copies of them.

use crate::counts::Counts;
use crate::ours::{FOREIGN, operate_name};
use crate::shown::same;
use crate::theirs::parse_operate;
use inputs::{RUST_SCORE_LIMIT, Rng, SCORE_LIMIT, TEXT_LIMIT, damage};
use position_book::raw;
use reference::objects::operate::Operate;
use reference::objects::signal::Signal;
use std::str::from_utf8;

/// The operates by their codes.
const OPERATES: [Operate; 7] = [
    Operate::HL,
    Operate::HS,
    Operate::HO,
    Operate::LO,
    Operate::LE,
    Operate::SO,
    Operate::SE,
];

/// What is read of a text, or the number that it is refused with.
type Read<T> = Result<T, u32>;

/// Some signals and operates, each with a damaged copy.
pub fn compare(rng: &mut Rng, counts: &mut Counts) -> Result<(), String> {
    for _ in 0..4 {
        let signal = inputs::signal(rng);
        let operate = inputs::operate(rng);
        compare_signal(signal.as_bytes(), counts)?;
        compare_operate(operate.as_bytes(), counts)?;
        compare_signal(&damage(rng, signal.as_bytes()), counts)?;
        compare_operate(&damage(rng, operate.as_bytes()), counts)?;
    }
    Ok(())
}

/// Compares a signal, unless its score is one that the Rust refuses and document 02 takes (W8): such a text is only counted.
fn compare_signal(bytes: &[u8], counts: &mut Counts) -> Result<(), String> {
    let theirs = domain(bytes).and_then(their_signal);
    let what = format!("signal {:?}", String::from_utf8_lossy(bytes));
    if has_high_score(bytes) {
        counts.add("signals left out", 1);
        return same(&what, &theirs, &Err(6));
    }
    counts.add("signals", 1);
    counts.add("refused", usize::from(theirs.is_err()));
    same(&what, &our_signal(bytes), &(theirs, true))
}

/// Whether a text has seven parts and a score above the Rust's limit, up to ours.
fn has_high_score(bytes: &[u8]) -> bool {
    let parts: Vec<&str> = domain(bytes).map_or(Vec::new(), |text| text.split('_').collect());
    let score = parts.get(6).and_then(|part| part.parse().ok());
    parts.len() == 7
        && score.is_some_and(|score| (RUST_SCORE_LIMIT + 1..=SCORE_LIMIT).contains(&score))
}

fn compare_operate(bytes: &[u8], counts: &mut Counts) -> Result<(), String> {
    let theirs = domain(bytes).and_then(their_operate);
    counts.add("operates", 1);
    counts.add("refused", usize::from(theirs.is_err()));
    let what = format!("operate {:?}", String::from_utf8_lossy(bytes));
    same(&what, &our_operate(bytes), &theirs)
}

/// The text that the Rust is given, or the number with which document 01 refuses bytes that the Rust is not given.
fn domain(bytes: &[u8]) -> Read<&str> {
    if bytes.len() > TEXT_LIMIT {
        return Err(7);
    }
    let text = from_utf8(bytes).map_err(|_| 1u32)?;
    let alone = !text.contains(['|', '\n']);
    alone.then_some(text).ok_or(2)
}

/// A signal's key and value; and whether the bytes behind what is written are kept.
fn our_signal(bytes: &[u8]) -> (Read<(String, String)>, bool) {
    let mut out = vec![FOREIGN; bytes.len() + 1];
    let answer = raw::signal(bytes, &mut out);
    let (key, rest) = out.split_at(answer.key);
    let (v1, rest) = rest.split_at(answer.v1);
    let (v2, rest) = rest.split_at(answer.v2);
    let (v3, rest) = rest.split_at(answer.v3);
    let [key, v1, v2, v3] = [key, v1, v2, v3].map(String::from_utf8_lossy);
    let read = (key.into_owned(), format!("{v1}_{v2}_{v3}_{}", answer.score));
    let kept = rest.iter().all(|byte| *byte == FOREIGN);
    (number(answer.number).map(|()| read), kept)
}

/// The Rust's key and value of a signal. Its two refusals are told apart by their texts.
fn their_signal(text: &str) -> Read<(String, String)> {
    match text.parse::<Signal>() {
        Ok(signal) => Ok((signal.key(), signal.value())),
        Err(why) if why.to_string().starts_with("Signal格式无效") => Err(5),
        Err(_) => Err(6),
    }
}

/// An operate's code, and the Chinese name of that code.
fn our_operate(bytes: &[u8]) -> Read<(usize, String)> {
    let answer = raw::operate(bytes);
    number(answer.number).map(|()| (answer.code as usize, operate_name(answer.code)))
}

fn their_operate(text: &str) -> Read<(usize, String)> {
    let name = parse_operate(text).ok_or(4u32)?;
    let code = OPERATES
        .iter()
        .position(|operate| operate.to_chinese() == name);
    code.map(|code| (code, name.to_string())).ok_or(4)
}

fn number(number: u32) -> Read<()> {
    if number == 0 { Ok(()) } else { Err(number) }
}
