//! The declarations of `src/raw.rs` and of `include/position_book.h` are those of the exported signatures: the same calls, arguments in the
//! same order with the same types, and structs with the same fields. The archive has these symbols and no others of ours.

use std::collections::BTreeMap;
use std::fs;
use std::path::{Path, PathBuf};
use std::process::Command;

/// A call's or a struct's names and types, in order: `text: bytes`, .., and for a call its result under the name `->`.
type Shape = Vec<(String, String)>;

fn root() -> PathBuf {
    Path::new(env!("CARGO_MANIFEST_DIR")).join("..")
}

fn read(path: &str) -> String {
    fs::read_to_string(root().join(path)).unwrap_or_else(|why| panic!("{path}: {why}"))
}

/// What stands between the first `open` after `from` and the `close` behind it.
fn between(text: &str, from: usize, open: char, close: char) -> &str {
    let start = from + text[from..].find(open).unwrap() + 1;
    let end = start + text[start..].find(close).unwrap();
    &text[start..end]
}

/// `name: type, ..` as pairs.
fn fields(list: &str) -> Shape {
    list.split(',')
        .map(str::trim)
        .filter(|field| !field.is_empty())
        .map(|field| {
            let (name, kind) = field.split_once(':').unwrap();
            let name = name.trim().trim_start_matches("pub ");
            (name.to_string(), kind.trim().to_string())
        })
        .collect()
}

/// The structs of a Rust or Rattle text that cross to the host.
fn structs(text: &str) -> BTreeMap<String, Shape> {
    text.split("#[repr(C)]")
        .skip(1)
        .map(|rest| {
            let at = rest.find("pub struct ").unwrap();
            let name = rest[at + 11..].split([' ', '{']).next().unwrap();
            (name.to_string(), fields(between(rest, at, '{', '}')))
        })
        .collect()
}

/// The calls of a Rust or Rattle text, each behind `mark` and up to its result type.
fn calls(text: &str, mark: &str, ends: &[char]) -> BTreeMap<String, Shape> {
    text.split(mark)
        .skip(1)
        .filter(|rest| rest.starts_with("position_book_"))
        .map(|rest| {
            let name = rest.split('(').next().unwrap();
            let mut shape = fields(between(rest, 0, '(', ')'));
            let behind = &rest[rest.find(')').unwrap()..];
            let result = behind.split("->").nth(1).unwrap();
            let result = result.split(ends).next().unwrap().trim();
            shape.push(("->".to_string(), result.to_string()));
            (name.to_string(), shape)
        })
        .collect()
}

/// A slice as the pointer and the length that cross for it.
fn crossing(shape: &Shape) -> Shape {
    let mut out = Shape::new();
    for (name, kind) in shape {
        let pointer = match kind.as_str() {
            "&[u8]" => "*const u8",
            "&mut [u8]" => "*mut u8",
            _ => {
                out.push((name.clone(), kind.clone()));
                continue;
            }
        };
        out.push((name.clone(), pointer.to_string()));
        out.push((format!("{name}_length"), "usize".to_string()));
    }
    out
}

/// What the library exports.
fn exported() -> (BTreeMap<String, Shape>, BTreeMap<String, Shape>) {
    let calls_text = read("crates/position_book_c/src/lib.rt");
    let mut shapes = structs(&read("crates/position_book_answer/src/lib.rt"));
    shapes.extend(structs(&read(
        "crates/position_book_answer_alone/src/lib.rt",
    )));
    let mark = "#[unsafe(no_mangle)]\npub extern \"C\" fn ";
    let calls = calls(&calls_text, mark, &['\n', '{'])
        .into_iter()
        .map(|(name, shape)| (name, crossing(&shape)))
        .collect();
    (calls, shapes)
}

/// A C declaration as the name and the Rust type.
fn from_c(declaration: &str) -> (String, String) {
    let declaration = declaration.trim();
    let at = declaration.rfind([' ', '*']).unwrap() + 1;
    let (kind, name) = declaration.split_at(at);
    let kind = match kind.trim() {
        "const uint8_t *" => "*const u8",
        "uint8_t *" => "*mut u8",
        "size_t" => "usize",
        "int64_t" => "i64",
        "int32_t" => "i32",
        "uint64_t" => "u64",
        "uint32_t" => "u32",
        "double" => "f64",
        other => panic!("{other} in {declaration}"),
    };
    (name.to_string(), kind.to_string())
}

/// The structs of the header.
fn c_structs(text: &str) -> BTreeMap<String, Shape> {
    text.split("typedef struct {")
        .skip(1)
        .map(|rest| {
            let (body, behind) = rest.split_once('}').unwrap();
            let name = behind.split(';').next().unwrap().trim();
            let lines = body
                .split(';')
                .filter(|line| !line.trim().is_empty())
                .map(from_c)
                .collect();
            (name.to_string(), lines)
        })
        .collect()
}

/// The calls of the header, a line each.
fn c_calls(text: &str) -> BTreeMap<String, Shape> {
    text.lines()
        .filter(|line| line.contains(" position_book_") && line.ends_with(");"))
        .map(|line| {
            let (result, rest) = line.split_once(' ').unwrap();
            let name = rest.split('(').next().unwrap();
            let mut shape: Shape = between(rest, 0, '(', ')').split(',').map(from_c).collect();
            let result = if result == "uint32_t" { "u32" } else { result };
            shape.push(("->".to_string(), result.to_string()));
            (name.to_string(), shape)
        })
        .collect()
}

#[test]
fn rust_declares_what_is_exported() {
    let (calls_out, shapes) = exported();
    let raw = read("host/src/raw.rs");
    assert_eq!(structs(&raw), shapes);
    assert_eq!(calls(&raw, "pub fn ", &[';', '{']), calls_out);
}

#[test]
fn c_declares_what_is_exported() {
    let (calls_out, shapes) = exported();
    let header = read("host/include/position_book.h");
    assert_eq!(c_structs(&header), shapes);
    assert_eq!(c_calls(&header), calls_out);
}

#[test]
fn the_archive_has_the_calls() {
    let archive = root().join("target/staticlib/libposition_book.a");
    let Ok(listed) = Command::new("nm")
        .args(["-g", "--defined-only"])
        .arg(archive)
        .output()
    else {
        println!("no nm: the archive's symbols are not compared");
        return;
    };
    assert!(listed.status.success());
    let text = String::from_utf8(listed.stdout).unwrap();
    let mut symbols: Vec<&str> = text
        .lines()
        .filter_map(|line| line.split(" T ").nth(1))
        .collect();
    symbols.sort_unstable();
    assert_eq!(symbols, exported().0.keys().collect::<Vec<_>>());
}
