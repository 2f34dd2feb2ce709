//! Rule 1: every import is used. A name that only a must-fail edit of the file brings into it counts, or the edit
//! would be refused for want of an import. `pub use` passes a name on, and counts as used.

use crate::edits::Edit;
use crate::lex::antt;
use crate::rattle;
use crate::report::{Finding, Rule};
use crate::tree::{File, Kind};
use crate::uses::{uses, Item, Usage, Use};
use std::ops::Range;

/// An import with something unused: what is unused, and what the import is without it.
pub struct Unused {
    pub line: usize,
    pub names: Vec<String>,
    pub span: Range<usize>,
    /// Nothing: the line goes.
    pub without: String,
}

pub fn unused(file: &File, edits: &[Edit]) -> Vec<Unused> {
    let usage = usage_of(file, edits);
    let end = if file.source.kind == Kind::Rattle {
        ";"
    } else {
        ""
    };
    let mut found: Vec<Unused> = file
        .uses
        .iter()
        .filter_map(|import| unused_of(import, &usage, end))
        .collect();
    if file.source.kind == Kind::Rattle {
        found.extend(unused_rattle(&file.source.text, edits_of(file, edits)));
    }
    found
}

pub fn findings(files: &[File], edits: &[Edit]) -> Vec<Finding> {
    let of_file = |file: &File| {
        let path = file.source.path.clone();
        let finding = move |unused: Unused| {
            let names: Vec<String> = unused
                .names
                .iter()
                .map(|name| format!("`{name}`"))
                .collect();
            Finding::new(
                Rule::Imports,
                &path,
                unused.line,
                format!("unused import {}", names.join(", ")),
            )
        };
        unused(file, edits)
            .into_iter()
            .map(finding)
            .collect::<Vec<_>>()
    };
    files.iter().flat_map(of_file).collect()
}

fn edits_of<'e>(file: &File, edits: &'e [Edit]) -> impl Iterator<Item = &'e str> {
    let path = file.source.path.clone();
    edits
        .iter()
        .flat_map(|edit| &edit.pairs)
        .filter(move |pair| pair.file == path)
        .map(|pair| pair.new.as_str())
}

fn usage_of(file: &File, edits: &[Edit]) -> Usage {
    let clauses;
    let mut usage = match file.source.kind {
        Kind::Antt => Usage::of(&file.body),
        Kind::Rattle => {
            clauses = rattle::clauses(&file.source.text);
            Usage::of(&antt(&clauses))
        }
    };
    usage.add_heads(&file.uses);
    for new in edits_of(file, edits) {
        let tokens = antt(new);
        if uses(&tokens).is_empty() {
            usage.add(&tokens);
        }
    }
    usage
}

fn unused_of(import: &Use, usage: &Usage, end: &str) -> Option<Unused> {
    if import.is_public() || import.module.ends_with('*') {
        return None;
    }
    if let Some(name) = import.module_name() {
        let gone = !usage.has_module(name);
        return gone.then(|| Unused {
            line: import.line,
            names: vec![name.to_string()],
            span: import.span.clone(),
            without: String::new(),
        });
    }
    let (kept, gone): (Vec<&Item>, Vec<&Item>) =
        import.items().iter().partition(|item| usage.has_item(item));
    let names = gone.iter().map(|item| item.brings.clone()).collect();
    (!gone.is_empty()).then(|| Unused {
        line: import.line,
        names,
        span: import.span.clone(),
        without: import.written(&kept, end),
    })
}

fn unused_rattle<'e>(text: &str, edits: impl Iterator<Item = &'e str>) -> Vec<Unused> {
    let mut code = rattle::code(text);
    edits
        .filter(|new| !new.trim_start().starts_with("use "))
        .for_each(|new| {
            code.push('\n');
            code.push_str(new);
        });
    let imports = rattle::imports(text);
    let heads: Vec<String> = imports
        .iter()
        .map(|import| import.head.split("::").next().unwrap_or("").to_string())
        .collect();
    let is_used = |name: &str| rattle::names(&code, name) || heads.iter().any(|head| head == name);
    let unused = |import: rattle::RattleUse| {
        let (kept, gone): (Vec<_>, Vec<_>) = import
            .names
            .into_iter()
            .partition(|(_, brings)| is_used(brings));
        let names = gone
            .into_iter()
            .map(|(_, brings)| brings)
            .collect::<Vec<_>>();
        let kept: Vec<String> = kept.into_iter().map(|(written, _)| written).collect();
        let without = match kept.len() {
            0 => String::new(),
            1 => format!("use {}{};\n", import.head, kept[0]),
            _ => format!("use {}{{{}}};\n", import.head, kept.join(", ")),
        };
        (!names.is_empty()).then_some(Unused {
            line: import.line,
            names,
            span: import.span,
            without,
        })
    };
    imports.into_iter().filter_map(unused).collect()
}

#[cfg(test)]
mod tests {
    use super::*;
    use crate::tree::Source;

    fn names(path: &str, text: &str, edits: &[Edit]) -> Vec<String> {
        let source = Source::new(path, text);
        unused(&File::new(&source), edits)
            .into_iter()
            .flat_map(|unused| unused.names)
            .collect()
    }

    #[test]
    fn names_in_antt() {
        let text = "use A.{f, g, ◌∷◌, take}\nuse A.B as X\nuse A.C as Y\npub use A.{p}\nh : Y.T\nh = f (a ∷ b).take\n";
        assert_eq!(
            names("crates/a/specs/A.antt", text, &[]),
            ["g", "take", "X"]
        );
        assert!(names("crates/a/specs/A.antt", "use A.{f}\ng : ℕ\ng = f\n", &[]).is_empty());
    }

    #[test]
    fn a_name_for_an_edit() {
        let edit = Edit::new(
            "crates/a/must-fail/e.edit",
            "file: specs/A.antt\nold: g = 1\nnew: g = f\n",
        );
        let text = "use A.{f, k}\ng : ℕ\ng = 1\n";
        assert_eq!(names("crates/a/specs/A.antt", text, &[edit]), ["k"]);
    }

    #[test]
    fn names_in_rattle() {
        let text = "ghost use A.{◌≡◌, min};\nuse crate::be::be8;\nuse wire::Refusal;\nfn f(min: u8) -> u8\n    ensures value { result ≡ x }\n{\n    be8(min)\n}\n";
        assert_eq!(names("crates/a/src/a.rt", text, &[]), ["min", "Refusal"]);
    }
}
