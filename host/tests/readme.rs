//! The README's example is the crate's own, which `cargo test --doc` runs.

use std::fs;
use std::path::Path;

#[test]
fn the_readme_shows_the_crates_example() {
    let readme = Path::new(env!("CARGO_MANIFEST_DIR")).join("../README.md");
    let text = fs::read_to_string(readme).unwrap();
    let shown = text.split("```rust\n").nth(1).unwrap();
    let shown = shown.split("```").next().unwrap();
    let docs: String = include_str!("../src/lib.rs")
        .lines()
        .map_while(|line| line.strip_prefix("//!"))
        .map(|line| format!("{}\n", line.strip_prefix(' ').unwrap_or(line)))
        .collect();
    assert!(docs.contains(shown), "{shown}");
}
