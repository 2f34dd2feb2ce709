//! A .rt file: Rattle, with antt in the braces of its clauses and in `ghost use`, and names of antt in `#[tactic(..)]`.

use std::ops::Range;

/// An import of Rattle: `use a::b::{c, d as e};`.
#[derive(Debug)]
pub struct RattleUse {
    pub line: usize,
    /// With the semicolon and the end of the line.
    pub span: Range<usize>,
    /// All that stands before the names.
    pub head: String,
    /// As written, and the name that it brings.
    pub names: Vec<(String, String)>,
}

/// A lemma or definition that a function's `#[tactic(.., using(..), unfolding(..))]` names.
#[derive(Debug, PartialEq)]
pub struct Named {
    pub line: usize,
    /// As antt writes it: `Rattle.wire.proofs.Laws.Sum.sealed`.
    pub path: String,
    pub unfolds: bool,
}

pub fn tactics(text: &str, own: &str) -> Vec<Named> {
    let bare = blank(text, &comment_ranges(text));
    let mut found = Vec::new();
    for (at, _) in bare.match_indices("tactic(") {
        let end = bare[at..].find(")]").map_or(bare.len(), |end| at + end);
        for (word, unfolds) in [("using(", false), ("unfolding(", true)] {
            for (begin, _) in bare[at..end].match_indices(word) {
                let names = at + begin + word.len();
                let line = bare[..names].matches('\n').count() + 1;
                let written = bare[names..end].split(')').next().unwrap_or("").split(',');
                let paths = written.map(str::trim).filter(|path| !path.is_empty());
                found.extend(paths.map(|path| Named {
                    line,
                    path: in_antt(path, own),
                    unfolds,
                }));
            }
        }
    }
    found
}

fn in_antt(path: &str, own: &str) -> String {
    let path = path.replace("::", ".");
    match path.strip_prefix("crate.") {
        Some(rest) => format!("Rattle.{own}.{rest}"),
        None => format!("Rattle.{path}"),
    }
}

/// The antt of the clauses; everything else is blanked, so that places stay as they are.
pub fn clauses(text: &str) -> String {
    keep(text, &clause_ranges(text))
}

/// The Rattle of the file: no clause but what stands in its brackets, no comment, no import.
pub fn code(text: &str) -> String {
    let mut hidden = comment_ranges(text);
    for clause in clause_ranges(text) {
        let mut from = clause.start;
        while let Some(open) = text[from..clause.end].find('⟦') {
            hidden.push(from..from + open);
            let shut = text[from + open..clause.end].find('⟧');
            from = shut.map_or(clause.end, |shut| from + open + shut);
        }
        hidden.push(from..clause.end);
    }
    hidden.extend(import_lines(text).map(|(_, span)| span));
    blank(text, &hidden)
}

pub fn imports(text: &str) -> Vec<RattleUse> {
    let import = |(line, span): (usize, Range<usize>)| {
        let written = text[span.clone()]
            .trim()
            .strip_prefix("use ")?
            .strip_suffix(';')?;
        let (path, names) = match written.split_once('{') {
            Some((path, names)) => (path, names.trim_end_matches('}').split(',').collect()),
            None => written
                .rsplit_once("::")
                .map_or(("", vec![written]), |(path, name)| {
                    (&written[..path.len() + 2], vec![name])
                }),
        };
        let names = names
            .iter()
            .map(|name| name.trim())
            .filter(|name| !name.is_empty())
            .map(|name| {
                let brings = name.rsplit(" as ").next().unwrap_or(name);
                (name.to_string(), brings.to_string())
            });
        Some(RattleUse {
            line,
            span,
            head: path.to_string(),
            names: names.collect(),
        })
    };
    import_lines(text).filter_map(import).collect()
}

/// Whether the code names what an import brings. A name in lower case is a module or a function, and a variable may be spelled like it.
pub fn names(code: &str, name: &str) -> bool {
    let is_letter = |c: char| c.is_alphanumeric() || c == '_';
    code.match_indices(name).any(|(at, _)| {
        let (before, behind) = (&code[..at], code[at + name.len()..].trim_start());
        let whole = !before.ends_with(is_letter) && !code[at + name.len()..].starts_with(is_letter);
        let is_field = before.ends_with('.') && !before.ends_with("..");
        let own = !before.ends_with("::") && !is_field;
        let is_type = name.starts_with(char::is_uppercase);
        whole && own && (is_type || behind.starts_with("::") || behind.starts_with('('))
    })
}

/// The lines that import Rattle's own names.
fn import_lines(text: &str) -> impl Iterator<Item = (usize, Range<usize>)> + '_ {
    let mut start = 0;
    text.split_inclusive('\n')
        .enumerate()
        .filter_map(move |(number, line)| {
            let span = start..start + line.len();
            start += line.len();
            line.trim_start()
                .starts_with("use ")
                .then_some((number + 1, span))
        })
}

fn comment_ranges(text: &str) -> Vec<Range<usize>> {
    let mut ranges = Vec::new();
    let mut from = 0;
    while let Some(at) = text[from..].find("//") {
        let begin = from + at;
        let end = text[begin..].find('\n').map_or(text.len(), |n| begin + n);
        ranges.push(begin..end);
        from = end;
    }
    ranges
}

/// What stands in the braces behind `requires`, `ensures` and the other words that open a clause.
fn clause_ranges(text: &str) -> Vec<Range<usize>> {
    let bare = blank(text, &comment_ranges(text));
    let mut ranges = Vec::new();
    for word in ["requires", "ensures", "ghost", "decreases", "invariant"] {
        for (at, _) in bare.match_indices(word) {
            let behind = at + word.len();
            if let Some(open) = opening(&bare[behind..]).map(|open| behind + open) {
                ranges.push(open + 1..closing(&bare, open));
            }
        }
    }
    ranges.sort_by_key(|range| range.start);
    ranges
}

/// Where the brace opens, behind a star and a clause's name if it has them, or a ghost member's and its `=`.
fn opening(text: &str) -> Option<usize> {
    let before = &text[..text.find('{')?];
    let name = before
        .trim_start_matches('*')
        .trim()
        .trim_end_matches([':', '='])
        .trim_end();
    let is_name = name.chars().all(|c| c.is_alphanumeric() || c == '_');
    is_name.then_some(before.len())
}

fn closing(text: &str, open: usize) -> usize {
    let mut depth = 0;
    for (at, c) in text[open..].char_indices() {
        match c {
            '{' => depth += 1,
            '}' if depth == 1 => return open + at,
            '}' => depth -= 1,
            _ => {}
        }
    }
    text.len()
}

fn keep(text: &str, shown: &[Range<usize>]) -> String {
    let mut hidden = Vec::new();
    let mut from = 0;
    for range in shown {
        hidden.push(from..range.start.max(from));
        from = range.end.max(from);
    }
    hidden.push(from..text.len());
    blank(text, &hidden)
}

/// Spaces in place of the hidden parts; lines stay where they are.
fn blank(text: &str, hidden: &[Range<usize>]) -> String {
    let mut bytes = text.as_bytes().to_vec();
    for range in hidden {
        for byte in &mut bytes[range.clone()] {
            if *byte != b'\n' {
                *byte = b' ';
            }
        }
    }
    String::from_utf8_lossy(&bytes).into_owned()
}

#[cfg(test)]
mod tests {
    use super::*;

    const FILE: &str = "use crate::slot;\nuse wire::ipv4::{Ipv4, Read as R};\n// least\nfn f(x: u8, slot: u8) -> R\n    ensures value { result ≡ min ⟦Ipv4::of(x)⟧ {a} }\n    ensures* { most }\n{\n    x.least()\n}\n";

    #[test]
    fn clauses_alone() {
        let kept = clauses(FILE);
        assert!(
            kept.contains("min")
                && kept.contains("{a} ")
                && kept.contains("most")
                && !kept.contains("least")
                && !kept.contains("slot")
        );
        assert_eq!(kept.lines().count(), FILE.lines().count());
    }

    #[test]
    fn ghost_members() {
        let kept = clauses("impl From<A> for B {\n    ghost from_gives = { λ a b. b ≡ some a };\n\n    fn from(a: A) -> B {\n        none\n    }\n}\n");
        assert!(kept.contains("some") && !kept.contains("none"));
    }

    #[test]
    fn names_of_the_code() {
        let code = code(FILE);
        assert!(names(&code, "Ipv4") && names(&code, "R"));
        assert!(!names(&code, "slot") && !names(&code, "least") && !names(&code, "min"));
        assert!(names("0..MOST", "MOST") && !names("x.MOST", "MOST"));
        assert!(
            names("slot::of(x)", "slot")
                && names("least (1)", "least")
                && !names("at_least(1)", "least")
        );
    }

    #[test]
    fn names_of_the_tactics() {
        let text = "// tactic(using(no))]\n#[tactic(auto, using(crate::proofs::A::k, low::proofs::Laws::B::m), unfolding(crate::specs::A::f))]\nfn f() {}\n";
        let named = |path: &str, unfolds| Named {
            line: 2,
            path: path.to_string(),
            unfolds,
        };
        let expected = [
            named("Rattle.up.proofs.A.k", false),
            named("Rattle.low.proofs.Laws.B.m", false),
            named("Rattle.up.specs.A.f", true),
        ];
        assert_eq!(tactics(text, "up"), expected);
        assert_eq!(tactics("#![tactic(auto)]\n", "up"), []);
    }

    #[test]
    fn imports_of_the_code() {
        let found = imports(FILE);
        assert_eq!(found.len(), 2);
        assert_eq!(
            (found[0].head.as_str(), found[0].names[0].1.as_str()),
            ("crate::", "slot")
        );
        assert_eq!(
            found[1].names[1],
            ("Read as R".to_string(), "R".to_string())
        );
    }
}
