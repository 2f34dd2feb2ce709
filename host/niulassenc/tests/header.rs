//! C's header and this crate say the same: version, limits, the names, numbers
//! and texts of the codes and of what a detector answers; the functions, and the
//! layout of each struct. `header.c` tells what the header has. The programs in
//! Rattle have the same texts.

use niulassenc::{limits, numbers, observed_text, text, Observed, Refusal, VERSION};
use std::fmt::{Debug, Write};
use std::path::Path;
use std::process::Command;

/// What a detector answers, in the order of the numbers.
const OBSERVED: [Observed; 4] = [
    Observed::New,
    Observed::Known,
    Observed::Duplicate { first: 0 },
    Observed::Full,
];

/// `MemoryTooSmall` as C has it: `MEMORY_TOO_SMALL`. What a variant carries is
/// left out.
fn name_in_c(variant: impl Debug) -> String {
    let mut name = String::new();
    let shown = format!("{variant:?}");
    for letter in shown.chars().take_while(|letter| letter.is_alphanumeric()) {
        if letter.is_ascii_uppercase() && !name.is_empty() {
            name.push('_');
        }
        name.push(letter.to_ascii_uppercase());
    }
    name
}

fn ours() -> String {
    let mut lines = format!("version {VERSION}\n");
    for (name, value) in [
        ("PEERS", limits::PEERS),
        ("BINDINGS", limits::BINDINGS),
        ("SLOTS", limits::SLOTS),
        ("MTU_MIN", limits::MTU_MIN),
        ("MTU_MAX", limits::MTU_MAX),
        ("FRAME_MIN", limits::FRAME_MIN),
        ("FRAME_MAX", limits::FRAME_MAX),
        ("SEGMENTS_MAX", limits::SEGMENTS_MAX),
        ("TICKS", limits::TICKS),
        ("SLOT_BYTES", limits::SLOT_BYTES),
        ("MEMORY_BYTES", limits::MEMORY_NEEDED),
        ("ENTRIES", limits::ENTRIES),
        ("IMAGE_BYTES", limits::IMAGE_BYTES),
        ("NONE", usize::from(numbers::NONE)),
    ] {
        let _ = writeln!(lines, "limit {name} {value}");
    }
    for &refusal in Refusal::ALL {
        let _ = writeln!(lines, "code {} {}", name_in_c(refusal), refusal.number());
    }
    for observed in OBSERVED {
        let number = observed.number();
        let _ = writeln!(lines, "observed {} {number}", name_in_c(observed));
        assert_eq!(observed.text(), observed_text(number));
    }
    for code in 0..=255 {
        let _ = writeln!(lines, "text {code} {}", text(code));
    }
    for answer in 0..=255 {
        let _ = writeln!(lines, "observed text {answer} {}", observed_text(answer));
    }
    lines
}

/// Compiles and runs `header.c`. It calls no function of the archive, but the
/// compiler may leave in the inline ones that do.
fn theirs() -> String {
    let folder = Path::new(env!("CARGO_MANIFEST_DIR"));
    let program = Path::new(env!("CARGO_TARGET_TMPDIR")).join("header");
    let compiled = Command::new("gcc")
        .args([
            "-std=c11",
            "-O1",
            "-Wall",
            "-Wextra",
            "-Wpedantic",
            "-Werror",
        ])
        .arg("-I")
        .arg(folder.join("../../include"))
        .arg("-o")
        .arg(&program)
        .arg(folder.join("tests/header.c"))
        .status()
        .expect("gcc is there");
    assert!(compiled.success());
    let output = Command::new(&program).output().expect("it runs");
    assert!(output.status.success());
    String::from_utf8(output.stdout).expect("text")
}

#[test]
fn header_and_crate_say_the_same() {
    let (ours, theirs) = (ours(), theirs());
    for (ours, theirs) in ours.lines().zip(theirs.lines()) {
        assert_eq!(ours, theirs);
    }
    assert_eq!(ours, theirs);
}

/// The enumerators of an enum of the header, without their prefix.
fn enumerators<'a>(header: &'a str, name: &str, prefix: &str) -> Vec<&'a str> {
    let begin = header.find(&format!("enum {name} {{")).expect("the enum");
    let lines = header[begin..].lines().skip(1);
    let lines = lines.take_while(|line| !line.starts_with('}'));
    let names = lines.filter_map(|line| line.trim_start().strip_prefix(prefix));
    names
        .map(|line| line.split(' ').next().unwrap_or_default())
        .collect()
}

/// Every enumerator of the header's codes and of what a detector answers has its
/// line in `header.c`, and so has every macro that is a number.
#[test]
fn nothing_of_the_header_is_left_out() {
    let folder = Path::new(env!("CARGO_MANIFEST_DIR"));
    let header = std::fs::read_to_string(folder.join("../../include/niulassenc.h")).expect("there");
    let program = std::fs::read_to_string(folder.join("tests/header.c")).expect("there");
    let mut codes = enumerators(&header, "niulassenc_code", "NIULASSENC_");
    codes.retain(|&name| name != "DONE" && name != "PENDING");
    assert_eq!(codes.len(), Refusal::ALL.len());
    let observed = enumerators(&header, "niulassenc_observed", "NIULASSENC_OBSERVED_");
    assert_eq!(observed.len(), OBSERVED.len());
    let macros = header
        .lines()
        .filter_map(|line| line.strip_prefix("#define NIULASSENC_"));
    let limits: Vec<&str> = macros
        .filter_map(|rest| {
            let (name, value) = rest.split_once(' ')?;
            let number = value.starts_with(|first: char| first.is_ascii_digit());
            (number && !name.starts_with("VERSION")).then_some(name)
        })
        .collect();
    assert_eq!(limits.len(), 14);
    for name in codes {
        assert!(program.contains(&format!("CODE({name});")), "{name}");
    }
    for name in observed {
        assert!(program.contains(&format!("OBSERVED({name});")), "{name}");
    }
    for name in limits {
        assert!(program.contains(&format!("LIMIT({name});")), "{name}");
    }
}

/// The names of the library's functions in some lines: the last word before a
/// parenthesis.
fn functions<'a>(lines: impl Iterator<Item = &'a str>) -> Vec<&'a str> {
    let words = lines.filter_map(|line| line.split_once('(')?.0.split(' ').next_back());
    let mut names: Vec<&str> = words
        .filter(|name| name.starts_with("niulassenc_"))
        .collect();
    names.sort_unstable();
    names
}

/// What `ffi.rs` asserts of each struct, a line for each fact: its size, and where
/// each field is.
fn layouts_of_the_crate(source: &str) -> Vec<String> {
    let mut facts = Vec::new();
    for layout in source.split("\nlayout!(").skip(1) {
        let (layout, _) = layout.split_once(");").expect("its end");
        let (name, rest) = layout.split_once(": ").expect("a name");
        let name = name_in_c(format_args!("{name}")).to_lowercase();
        let (size, fields) = rest.split_once("; ").expect("size and alignment");
        let (size, _) = size.split_once(", ").expect("a size");
        facts.push(format!("{name} {size}"));
        let fields = fields.split(',').map(str::trim);
        facts.extend(fields.map(|field| format!("{name} {field}")));
    }
    facts.sort_unstable();
    facts
}

/// The same of the header.
fn layouts_of_the_header(source: &str) -> Vec<String> {
    let mut facts = Vec::new();
    for line in source.lines() {
        let asserted = line.strip_prefix("NIULASSENC_SIZE(niulassenc_");
        let asserted = asserted.or_else(|| line.strip_prefix("NIULASSENC_AT(niulassenc_"));
        facts.extend(asserted.map(|fact| fact.trim_end_matches(");").replace(',', "")));
    }
    facts.sort_unstable();
    facts
}

#[test]
fn the_same_functions_and_structs() {
    let folder = Path::new(env!("CARGO_MANIFEST_DIR"));
    let header = std::fs::read_to_string(folder.join("../../include/niulassenc.h")).expect("there");
    let ffi = std::fs::read_to_string(folder.join("src/ffi.rs")).expect("there");
    // A prototype begins its line; what a function's body or a comment names does not.
    let outside = header
        .lines()
        .filter(|line| line.starts_with(char::is_alphabetic));
    let declared = functions(outside.filter(|line| !line.starts_with("static")));
    let bound = functions(ffi.lines());
    assert!(declared.contains(&"niulassenc_save") && declared.contains(&"niulassenc_load"));
    assert_eq!(declared, bound);
    let layouts = layouts_of_the_header(&header);
    assert!(layouts.contains(&"saving code 8".to_owned()));
    assert!(layouts.contains(&"receipt offset 22".to_owned()));
    assert_eq!(layouts, layouts_of_the_crate(&ffi));
}

/// The programs in Rattle print the same text for each code, and for a number
/// that is no code: their table has the texts in the order of the numbers.
#[test]
fn programs_and_crate_say_the_same() {
    let folder = Path::new(env!("CARGO_MANIFEST_DIR"));
    let path = folder.join("../../crates/program/src/answer.rt");
    let source = std::fs::read_to_string(path).expect("there");
    let between = |begin: &str, end: &str| {
        let (_, rest) = source.split_once(begin).expect("begins");
        rest.split_once(end).expect("ends").0
    };
    let unknown = between("const UNKNOWN: &str = \"", "\"");
    let table = between("const TEXTS: [&str; ", "];");
    assert_eq!(unknown, text(u8::MAX));
    let mut codes = Vec::new();
    for (code, line) in (0..).zip(table.lines().skip(1)) {
        let entry = line.trim().trim_end_matches(',');
        if entry == "UNKNOWN" {
            continue;
        }
        assert_eq!(entry, format!("{:?}", text(code)), "{code}");
        codes.push(code);
    }
    let refusals = Refusal::ALL.iter().map(|refusal| refusal.number());
    let all: Vec<u8> = [0, 1].into_iter().chain(refusals).collect();
    assert_eq!(codes, all);
}

#[test]
fn crate_and_archive_go_together() {
    assert!(niulassenc::matches());
    assert_eq!(niulassenc::version(), VERSION);
    let parts = env!("CARGO_PKG_VERSION").split('.');
    let parts = parts.map(|part| part.parse::<u32>().expect("a number"));
    assert_eq!(parts.fold(0, |sum, part| sum * 256 + part), VERSION);
}
