//! The example over the season's comma files lists the season's trades, and tells of each line that is refused.

use position_book::Refusal;
use std::env;
use std::fs;
use std::path::{Path, PathBuf};
use std::process::Command;

fn comma(name: &str) -> PathBuf {
    let examples = Path::new(env!("CARGO_MANIFEST_DIR")).join("../examples");
    examples.join("comma").join(name)
}

/// The example, which `cargo test` builds beside the folder of this program.
fn example() -> PathBuf {
    let this = env::current_exe().unwrap();
    let built = this.ancestors().nth(2).unwrap().join("examples/comma_file");
    assert!(
        built.is_file(),
        "not built: `cargo build --release --example comma_file`"
    );
    built
}

/// What the example prints, and what it tells on standard error, for a file of bars.
fn run(bars: &Path) -> (String, String) {
    let files = [&comma("sheet"), bars, &comma("signals")];
    let ran = Command::new(example()).args(files).output().unwrap();
    let [printed, told] = [ran.stdout, ran.stderr].map(|text| String::from_utf8(text).unwrap());
    assert!(ran.status.success(), "{told}");
    (printed, told)
}

/// The trades, and what is told of the season's bar that is not later, at the line of a number.
fn expected(number: usize) -> (String, String) {
    let trades = fs::read_to_string(comma("trades")).unwrap();
    (trades, format!("line {number}: {}\n", Refusal::NotLater))
}

#[test]
fn the_example_lists_the_trades_of_the_season() {
    assert_eq!(run(&comma("bars.csv")), expected(18));
}

/// Damaged lines before the first bar: each is told, and the trades are the same.
#[test]
fn damaged_lines_are_told_and_left_out() {
    let damaged: [(&[u8], Refusal); 6] = [
        (b"2,2026-02-29 15:00:00+08:00,3120", Refusal::WrongLine),
        (b"2,2026-02-28 15:00:00+08:00,3120\r", Refusal::WrongLine),
        (b"2,2026-02-28 15:00:00+08:00,31\xff0", Refusal::WrongLine),
        (b"", Refusal::WrongLine),
        (
            b"2,2026-02-28 15:00:00+08:00,3120.1234567",
            Refusal::LongPrice,
        ),
        (
            b"2147483648,2026-02-28 15:00:00+08:00,3120",
            Refusal::BarOutOfRange,
        ),
    ];
    let (mut bars, mut told) = (Vec::new(), String::new());
    for (number, (line, why)) in (1..).zip(damaged) {
        bars.extend([line, b"\n"].concat());
        told += &format!("line {number}: {why}\n");
    }
    bars.extend(fs::read(comma("bars.csv")).unwrap());
    let path = Path::new(env!("CARGO_TARGET_TMPDIR")).join("damaged.csv");
    fs::write(&path, bars).unwrap();
    let (trades, late) = expected(18 + damaged.len());
    assert_eq!(run(&path), (trades, told + &late));
}
