//! What the archive takes of the host's memory beside its code and the stack: a few constants, read only, and no table of dates among them.
//! `cargo test --release --test read_only -- --nocapture` prints the figures.

use std::path::Path;
use std::process::Command;

/// What all constants may take together. They take 1,223 bytes as today's kit compiles them, which keeps the names of the operates and some more
/// doubles so (1,024 with the kit before): more than 14 dates of four bytes, ours or as the compiler would keep a `match`, go past it. Who has
/// to raise it looks first at what came (`objdump -s -j SECTION`).
const LIMIT: usize = 1_280;

/// A section that the host loads and that is no code.
struct Section {
    name: String,
    bytes: usize,
    read_only: bool,
}

/// Of ` 2 .rodata.cst16  00000200  ..  CONTENTS, ALLOC, LOAD, READONLY, DATA`, as objdump has it.
fn section(line: &str) -> Option<Section> {
    let loaded = line.contains(" ALLOC") && !line.ends_with(" CODE");
    let words: Vec<&str> = line.split_whitespace().collect();
    loaded.then(|| Section {
        name: words[1].to_string(),
        bytes: usize::from_str_radix(words[2], 16).unwrap(),
        read_only: line.contains(" READONLY"),
    })
}

#[test]
fn constants_are_few_and_read_only() {
    let host = Path::new(env!("CARGO_MANIFEST_DIR"));
    let archive = host.join("../target/staticlib/libposition_book.a");
    let Ok(listed) = Command::new("objdump").arg("-wh").arg(archive).output() else {
        println!("no objdump: the constants are not read");
        return;
    };
    let text = String::from_utf8(listed.stdout).unwrap();
    let sections: Vec<Section> = text.lines().filter_map(section).collect();
    for Section { name, bytes, .. } in &sections {
        println!("{name}: {bytes} bytes");
    }
    assert!(sections.iter().all(|section| section.read_only));
    let bytes: usize = sections.iter().map(|section| section.bytes).sum();
    println!("all constants: {bytes} bytes");
    assert!((1..=LIMIT).contains(&bytes), "{bytes} bytes of constants");
}
