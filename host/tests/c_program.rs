//! The C programs compile with all warnings as errors. The season prints what the run program prints for case *1, and
//! the days are read as the C library's calendar has them.

use std::fs;
use std::path::{Path, PathBuf};
use std::process::Command;

/// The file of a path from the host's folder on.
fn file(path: &str) -> PathBuf {
    Path::new(env!("CARGO_MANIFEST_DIR")).join(path)
}

/// Compiles the C program of a name and runs it: what it prints, or none where there is no cc.
fn printed(name: &str) -> Option<String> {
    let built = Path::new(env!("CARGO_TARGET_TMPDIR")).join(name);
    let compiled = Command::new("cc")
        .args([
            "-std=c11",
            "-Wall",
            "-Wextra",
            "-Wpedantic",
            "-Werror",
            "-O1",
        ])
        .args(["-fsanitize=address,undefined", "-I"])
        .arg(file("include"))
        .arg(file(&format!("c/{name}.c")))
        .arg(file("../target/staticlib/libposition_book.a"))
        .arg("-o")
        .arg(&built)
        .output();
    let Ok(compiled) = compiled else {
        println!("no cc: the C program {name} is not run");
        return None;
    };
    assert!(
        compiled.status.success(),
        "{}",
        String::from_utf8_lossy(&compiled.stderr)
    );
    let ran = Command::new(&built).output().unwrap();
    assert!(
        ran.status.success(),
        "{}",
        String::from_utf8_lossy(&ran.stderr)
    );
    Some(String::from_utf8(ran.stdout).unwrap())
}

#[test]
fn the_season_prints_case_1() {
    let expected = fs::read_to_string(file("../crates/run/stdout")).unwrap();
    if let Some(printed) = printed("season") {
        assert_eq!(printed, expected);
    }
}

/// Of 132 years with 14 months of 33 days all but the 47,482 real days from 1970 to 2099 are refused.
#[test]
fn every_day_is_read_and_no_other() {
    let others = 132 * 14 * 33 - 47_482;
    let expected = format!("days: 47482 read as glibc has them, {others} others refused with 16\n");
    if let Some(printed) = printed("days") {
        assert_eq!(printed, expected);
    }
}
