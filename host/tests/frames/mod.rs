//! How much of the stack the archive's functions use, whatever their arguments: their frames as their instructions make them, summed along
//! every chain of calls.

use std::collections::{BTreeMap, BTreeSet};
use std::path::Path;
use std::process::Command;

/// The functions of the archive by their names.
pub struct Frames(BTreeMap<String, Frame>);

struct Frame {
    /// Its bytes, with the return address.
    bytes: usize,
    /// The functions that are called.
    calls: BTreeSet<String>,
}

impl Frames {
    /// Reads the archive; none without an objdump.
    pub fn read() -> Option<Frames> {
        let host = Path::new(env!("CARGO_MANIFEST_DIR"));
        let listed = Command::new("objdump")
            .args(["-dr", "--no-show-raw-insn"])
            .arg(host.join("../target/staticlib/libposition_book.a"))
            .output();
        let text = String::from_utf8(listed.ok()?.stdout).unwrap();
        let sections = text.split("Disassembly of section .text.").skip(1);
        let frames = sections.map(|section| {
            let (name, code) = section.split_once(":\n").unwrap();
            (name.to_string(), Frame::of(code))
        });
        Some(Frames(frames.collect()))
    }

    /// The most bytes that a function and those that it calls use together.
    pub fn deepest(&self, name: &str) -> usize {
        self.below(name, &[])
    }

    /// The same behind the functions `above` it, none of which may be called again: then there would be no bound.
    fn below(&self, name: &str, above: &[&str]) -> usize {
        assert!(!above.contains(&name), "{name} calls itself");
        let frame = match self.0.get(name) {
            Some(frame) => frame,
            None if ["memcpy", "memmove", "memset"].contains(&name) => return 0,
            None => panic!("{name} is not in the archive"),
        };
        let above = [above, &[name]].concat();
        let called = frame.calls.iter().map(|call| self.below(call, &above));
        frame.bytes + called.max().unwrap_or(0)
    }
}

impl Frame {
    /// A frame has what the function pushes, and what it takes from the stack pointer. Much is taken page by page in a loop: then what is
    /// given back at the end tells.
    fn of(code: &str) -> Frame {
        let (mut pushed, mut taken, mut given) = (8, 0, 0);
        for line in code.lines() {
            let words: Vec<&str> = line.split_whitespace().skip(1).collect();
            match words[..] {
                ["push", ..] => pushed += 8,
                ["sub", operands] if operands.ends_with(",%rsp") => taken += number(operands),
                ["add", operands] if operands.ends_with(",%rsp") => {
                    given = given.max(number(operands))
                }
                ["cmp", _] | [] => {}
                [.., operands] => assert!(!operands.ends_with(",%rsp"), "not known here: {line}"),
            }
        }
        Frame {
            bytes: pushed + taken.max(given),
            calls: code.lines().filter_map(called).collect(),
        }
    }
}

/// The number of `$0x28,%rsp`.
fn number(operands: &str) -> usize {
    let digits = operands.strip_prefix("$0x").unwrap();
    usize::from_str_radix(digits.strip_suffix(",%rsp").unwrap(), 16).unwrap()
}

/// The function that a line names by its section or its symbol: `58: R_X86_64_PLT32 .text.utf8::valid-0x4`.
fn called(line: &str) -> Option<String> {
    let (_, symbol) = line.split_once("R_X86_64_")?.1.split_once('\t')?;
    let symbol = symbol.rsplit_once(['-', '+']).map_or(symbol, |cut| cut.0);
    let name = symbol.strip_prefix(".text.").unwrap_or(symbol);
    (!name.starts_with('.')).then(|| name.to_string())
}
