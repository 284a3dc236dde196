//! Proves and builds the static library with `tools/archive`, and links it. What was proved before is not proved again. With
//! `POSITION_BOOK_BUILT` set, as `./test` does, the library stands there already.

use std::path::Path;
use std::process::Command;
use std::{env, fs};

fn main() {
    let root = Path::new(env!("CARGO_MANIFEST_DIR")).join("..");
    println!("cargo:rerun-if-env-changed=POSITION_BOOK_BUILT");
    println!("cargo:rerun-if-changed=../crates.txt");
    println!("cargo:rerun-if-changed=../tools/archive");
    // What is proved, and not what `rt` writes beside it.
    for entry in fs::read_dir(root.join("crates")).unwrap() {
        for part in ["src", "specs", "proofs"] {
            let folder = entry.as_ref().unwrap().path().join(part);
            if folder.is_dir() {
                println!("cargo:rerun-if-changed={}", folder.display());
            }
        }
    }
    let archives = root.join("target/staticlib");
    if env::var_os("POSITION_BOOK_BUILT").is_none() {
        build(&root);
    } else {
        let archive = archives.join("libposition_book.a");
        println!("cargo:rerun-if-changed={}", archive.display());
    }
    println!("cargo:rustc-link-search=native={}", archives.display());
    println!("cargo:rustc-link-lib=static=position_book");
}

fn build(root: &Path) {
    match Command::new(root.join("tools/archive")).output() {
        Ok(done) if done.status.success() => {}
        Ok(done) => panic!(
            "`tools/archive` failed:\n{}{}",
            String::from_utf8_lossy(&done.stdout),
            String::from_utf8_lossy(&done.stderr)
        ),
        Err(why) => panic!(
            "`tools/archive` could not be run ({why}): are python3 and the Rattle kit's `rt` on the PATH?"
        ),
    }
}
