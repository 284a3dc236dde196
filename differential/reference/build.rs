//! Writes the module tree of the four files where they stand: below the folder CZSC_SOURCES, or ../shared/docs/src seen from the repository.

use std::path::{Path, PathBuf};
use std::{env, fs};

fn main() {
    let folder = sources().join("crates/czsc-core/src/objects");
    println!("cargo:rerun-if-env-changed=CZSC_SOURCES");
    let modules: String = ["event", "operate", "position", "signal"]
        .iter()
        .map(|name| module(&folder, name))
        .collect();
    let tree =
        PathBuf::from(env::var("OUT_DIR").expect("cargo says where to write")).join("objects.rs");
    fs::write(tree, modules).expect("the module tree is written");
}

fn sources() -> PathBuf {
    match env::var("CZSC_SOURCES") {
        Ok(folder) => PathBuf::from(folder),
        Err(_) => Path::new(env!("CARGO_MANIFEST_DIR")).join("../../../shared/docs/src"),
    }
}

fn module(folder: &Path, name: &str) -> String {
    let file = folder.join(name).with_extension("rs");
    let file = file
        .canonicalize()
        .unwrap_or_else(|why| panic!("{}: {why}", file.display()));
    println!("cargo:rerun-if-changed={}", file.display());
    format!("#[path = {file:?}]\npub mod {name};\n")
}
