//! Rule 7: how many lines of the first storey are to be believed. A section header of a file says what need not be, and the tables of docs/PROOFS.md
//! and the totals there and in README.md have the numbers that come out: blank lines, comments and imports do not count.

use crate::fix::write_if_new;
use crate::report::{Finding, Rule};
use crate::storeys::is_first_spec;
use crate::tree::{File, Tree};
use std::collections::BTreeMap;
use std::path::Path;
use std::{fs, io};

const HEADER: &str = "-- ---- ";
/// The parts of a file, by how their headers go on; all else is to be believed.
const OTHER: &str = "need not be believed: ";
const EXAMPLES: &str = "examples: ";
/// A number in front of these words is the total.
const TOTAL: &str = " lines are to be believed";
const TABLES: &str = "docs/PROOFS.md";
const DOCUMENTS: [&str; 2] = [TABLES, "README.md"];

#[derive(Clone, Copy, Debug, Default, PartialEq)]
struct Lines {
    believed: usize,
    other: usize,
    examples: usize,
}

impl Lines {
    fn add(&mut self, more: Lines) {
        self.believed += more.believed;
        self.other += more.other;
        self.examples += more.examples;
    }
}

/// By how the tables name them: "`wire` Sum", a crate "`wire`", and "all".
type Counts = BTreeMap<String, Lines>;

pub fn findings(tree: &Tree, files: &[File]) -> Vec<Finding> {
    let counts = counts(files);
    let mut found = Vec::new();
    for path in DOCUMENTS {
        let text = tree.document(path);
        let right = rewritten(text, &counts);
        for (number, (is, should)) in text.lines().zip(right.lines()).enumerate() {
            if is != should {
                let message = format!("the lines to be believed are counted: {should}");
                found.push(Finding::new(Rule::Believed, path, number + 1, message));
            }
        }
        if !text.contains(TOTAL) {
            let message = format!("no total: a number and `{}`", TOTAL.trim());
            found.push(Finding::new(Rule::Believed, path, 1, message));
        }
    }
    for name in not_once(tree.document(TABLES), &counts) {
        let message = format!("the tables do not count {name} once");
        found.push(Finding::new(Rule::Believed, TABLES, 1, message));
    }
    for (line, name) in gone(tree.document(TABLES), &counts) {
        let message = format!("the tables count {name}, and there is no such file");
        found.push(Finding::new(Rule::Believed, TABLES, line, message));
    }
    found
}

/// How many documents get other numbers.
pub fn fix(root: &Path, tree: &Tree) -> io::Result<usize> {
    let counts = counts(&tree.files());
    let mut changed = 0;
    for path in DOCUMENTS.map(|name| root.join(name)) {
        let text = fs::read_to_string(&path)?;
        changed += write_if_new(&path, &text, &rewritten(&text, &counts))?;
    }
    Ok(changed)
}

fn counts(files: &[File]) -> Counts {
    let mut counts = Counts::new();
    for file in files.iter().filter(|file| is_first_spec(file.source)) {
        let lines = lines_of(file);
        let name = file.source.within()["specs/".len()..].trim_end_matches(".antt");
        let layer = format!("`{}`", file.source.crate_name);
        for key in [format!("{layer} {name}"), layer, "all".to_string()] {
            counts.entry(key).or_default().add(lines);
        }
    }
    counts
}

fn lines_of(file: &File) -> Lines {
    let mut lines = Lines::default();
    let mut code: Vec<usize> = file.body.iter().map(|token| token.line).collect();
    code.dedup();
    let mut header = "";
    for (number, text) in file.source.text.lines().enumerate() {
        header = text.trim_start().strip_prefix(HEADER).unwrap_or(header);
        if code.binary_search(&(number + 1)).is_err() {
            continue;
        }
        match header {
            other if other.starts_with(OTHER) => lines.other += 1,
            shown if shown.starts_with(EXAMPLES) => lines.examples += 1,
            _ => lines.believed += 1,
        }
    }
    lines
}

/// The document with the numbers that were counted.
fn rewritten(text: &str, counts: &Counts) -> String {
    let line = |line: &str| {
        if line.starts_with('|') {
            row(line, counts)
        } else {
            total(line, counts)
        }
    };
    let end = if text.ends_with('\n') { "\n" } else { "" };
    text.lines().map(line).collect::<Vec<_>>().join("\n") + end
}

/// Behind a name, two numbers are the lines to be believed and the others; behind one or more names, one number is those that need not be believed.
fn row(line: &str, counts: &Counts) -> String {
    let mut cells: Vec<String> = line.split('|').map(str::to_string).collect();
    for at in 0..cells.len() {
        let Some(lines) = sum(&names(&cells[at]), counts) else {
            continue;
        };
        match numbers(&cells[at + 1..]) {
            2 => {
                cells[at + 1] = format!(" {} ", written(lines.believed));
                cells[at + 2] = format!(" {} ", written(lines.other));
            }
            1 => cells[at + 1] = format!(" {} ", written(lines.other + lines.examples)),
            _ => {}
        }
    }
    cells.join("|")
}

/// The files that a cell names: "`wire` Bytes, Sum, `endpoint` Table".
fn names(cell: &str) -> Vec<String> {
    let mut layer = "";
    let mut names = Vec::new();
    for name in cell.trim().split(", ") {
        match name.split_once("` ") {
            Some((before, _)) => layer = &name[..before.len() + 2],
            None if !layer.is_empty() => {
                names.push(format!("{layer}{name}"));
                continue;
            }
            None => {}
        }
        names.push(name.to_string());
    }
    names
}

fn sum(names: &[String], counts: &Counts) -> Option<Lines> {
    let mut sum = Lines::default();
    for name in names {
        sum.add(*counts.get(name)?);
    }
    Some(sum)
}

/// How many numbers these cells begin with.
fn numbers<T: AsRef<str>>(cells: &[T]) -> usize {
    let is_number = |cell: &&T| {
        let cell = cell.as_ref().trim();
        !cell.is_empty() && cell.chars().all(|c| c.is_ascii_digit() || c == ',')
    };
    cells.iter().take_while(is_number).count()
}

fn total(line: &str, counts: &Counts) -> String {
    let Some((before, after)) = line.split_once(TOTAL) else {
        return line.to_string();
    };
    let digits = before.trim_end_matches(|c: char| c.is_ascii_digit() || c == ',');
    let all = counts.get("all").copied().unwrap_or_default();
    format!("{digits}{}{TOTAL}{after}", written(all.believed))
}

/// What the tables do not have once: both numbers of a file, of a crate and of all; and the lines of a file that need not be believed, with what pins them.
fn not_once<'c>(text: &str, counts: &'c Counts) -> Vec<&'c str> {
    let mut listed: Vec<(String, usize)> = Vec::new();
    for line in text.lines().filter(|line| line.starts_with('|')) {
        let cells: Vec<&str> = line.split('|').collect();
        for at in 0..cells.len() {
            let numbers = numbers(&cells[at + 1..]);
            listed.extend(names(cells[at]).into_iter().map(|name| (name, numbers)));
        }
    }
    let is_not_once = |(name, lines): &(&'c String, &'c Lines)| {
        let times = |numbers| {
            let of = |(n, k): &&(String, usize)| n == *name && *k == numbers;
            listed.iter().filter(of).count()
        };
        let is_example = lines.believed + lines.other == 0;
        let needs_no_belief = name.contains(' ') && lines.other + lines.examples > 0;
        times(2) != usize::from(!is_example) || times(1) != usize::from(needs_no_belief)
    };
    let found = counts.iter().filter(is_not_once);
    found.map(|(name, _)| name.as_str()).collect()
}

/// What the tables have numbers for, with its line, and no crate has.
fn gone(text: &str, counts: &Counts) -> Vec<(usize, String)> {
    let mut gone = Vec::new();
    for (line, text) in text.lines().enumerate() {
        let cells: Vec<&str> = text.split('|').collect();
        for at in (0..cells.len()).filter(|at| numbers(&cells[at + 1..]) > 0) {
            let named = names(cells[at]).into_iter();
            let is_file = |name: &String| name.starts_with('`') && name.contains("` ");
            let not_there = named.filter(|name| is_file(name) && !counts.contains_key(name));
            gone.extend(not_there.map(|name| (line + 1, name)));
        }
    }
    gone
}

/// With a comma at the thousands.
fn written(n: usize) -> String {
    if n < 1000 {
        return n.to_string();
    }
    format!("{},{:03}", n / 1000, n % 1000)
}

#[cfg(test)]
mod tests {
    use super::*;
    use crate::tree::Source;

    const FORMAT: &str = "-- Bytes.\nuse A.{ℕ}\n\n-- a byte\nabbrev pub f : ℕ\nf = 1  -- one\n\n-- ---- need not be believed: readers\n\nabbrev pub g : ℕ\n\
         g = 2\n\nmodule _ where\n  -- ---- what is read\n  abbrev pub h : ℕ\n  h =\n      3\n";

    fn counted() -> Counts {
        let sources = [
            Source::new("crates/wire/specs/Sum.antt", FORMAT),
            Source::new("crates/wire/proofs/Laws/Sum.antt", FORMAT),
            Source::new("crates/wire/specs/Lib.antt", "pub mod Sum\n"),
            Source::new(
                "crates/end/specs/Cases.antt",
                "-- ---- examples: two\nabbrev k : ℕ\nk = 1\n",
            ),
        ];
        counts(&sources.iter().map(File::new).collect::<Vec<_>>())
    }

    #[test]
    fn headers_part_a_file() {
        let counts = counted();
        let lines = |believed, other, examples| Lines {
            believed,
            other,
            examples,
        };
        assert_eq!(counts["`wire` Sum"], lines(5, 3, 0));
        assert_eq!(counts["`end`"], lines(0, 0, 2));
        assert_eq!((counts["all"], counts.len()), (lines(5, 3, 2), 5));
    }

    #[test]
    fn documents_get_the_numbers() {
        let text = "| File | Lines | Others |\n| `wire` Sum | 1 | 1 | | `wire` | 2 | 2 |\n| `wire` Sum, `end` Cases | 1,000 | pinned |\nSome 9,999 lines are to be believed.\n";
        let right = "| File | Lines | Others |\n| `wire` Sum | 5 | 3 | | `wire` | 5 | 3 |\n| `wire` Sum, `end` Cases | 5 | pinned |\nSome 5 lines are to be believed.\n";
        assert_eq!(rewritten(text, &counted()), right);
        assert_eq!(rewritten(right, &counted()), right);
        assert_eq!(not_once(right, &counted()), ["all"]);
        assert_eq!(gone(right, &counted()), []);
        let stale =
            "\n| `wire` Sum, Bytes | 5 | pinned | | `end` Gone | 5 | 3 |\n| `end` Said | of it |\n";
        let names = ["`wire` Bytes", "`end` Gone"].map(|name| (2, name.to_string()));
        assert_eq!(gone(stale, &counted()), names);
        assert_eq!(
            (written(999), written(12_034)),
            ("999".to_string(), "12,034".to_string())
        );
    }
}
