//! What a machine can mend: unused imports go, with the same names in the must-fail edits that replace such a line, and
//! long comments and imports are broken.

use crate::columns::wrapped;
use crate::edits::Edit;
use crate::imports::{unused, Unused};
use crate::lex::antt;
use crate::tree::{File, Kind, Tree};
use crate::uses::{uses, Item, COLUMNS};
use std::path::Path;
use std::{fs, io};

/// The number of files changed.
pub fn fix(root: &Path, tree: &Tree) -> io::Result<usize> {
    let mut changed = 0;
    let mut edits: Vec<(&Edit, String)> = tree
        .edits
        .iter()
        .map(|edit| (edit, edit.text.clone()))
        .collect();
    for file in &tree.files() {
        let gone = unused(file, &tree.edits);
        for (edit, text) in &mut edits {
            follow(edit, text, file, &gone);
        }
        let end = if file.source.kind == Kind::Rattle {
            ";"
        } else {
            ""
        };
        let mended = wrapped(&broken_imports(&without(&file.source.text, &gone), end));
        changed += write_if_new(&root.join(&file.source.path), &file.source.text, &mended)?;
    }
    for (edit, text) in &edits {
        changed += write_if_new(&root.join(&edit.path), &edit.text, text)?;
    }
    Ok(changed)
}

/// How many files that changes.
pub fn write_if_new(path: &Path, old: &str, new: &str) -> io::Result<usize> {
    if old != new {
        fs::write(path, new)?;
    }
    Ok(usize::from(old != new))
}

/// The text without the unused names; a line on which nothing is left goes whole.
pub fn without(text: &str, gone: &[Unused]) -> String {
    let mut mended = text.to_string();
    let mut from_the_end: Vec<&Unused> = gone.iter().collect();
    from_the_end.sort_by_key(|unused| std::cmp::Reverse(unused.span.start));
    for unused in from_the_end {
        let mut span = unused.span.clone();
        if unused.without.is_empty() && !mended[span.clone()].ends_with('\n') {
            span.end += mended[span.end..].find('\n').map_or(0, |end| end + 1);
        }
        mended.replace_range(span, &unused.without);
    }
    mended
}

/// Imports on one long line, on as many as they need.
fn broken_imports(text: &str, end: &str) -> String {
    let mut mended = text.to_string();
    for import in uses(&antt(text)).iter().rev() {
        let written = &text[import.span.clone()];
        if written.chars().count() + end.len() > COLUMNS && !written.contains('\n') {
            let items: Vec<&Item> = import.items().iter().collect();
            mended.replace_range(import.span.clone(), &import.written(&items, end));
        }
    }
    mended
}

/// An edit that replaces an import replaces what is left of it.
fn follow(edit: &Edit, text: &mut String, file: &File, gone: &[Unused]) {
    for pair in edit
        .pairs
        .iter()
        .filter(|pair| pair.file == file.source.path)
    {
        for unused in gone.iter().filter(|unused| {
            file.source.text[unused.span.clone()].trim_end() == pair.old.trim_end_matches(';')
        }) {
            let old = less(&pair.old, &unused.names);
            let new = less(&pair.new, &unused.names);
            *text = text.replacen(
                &format!("old: {}\nnew: {}", pair.old, pair.new),
                &format!("old: {old}\nnew: {new}"),
                1,
            );
        }
    }
}

/// An import line without these names.
fn less(line: &str, names: &[String]) -> String {
    let tokens = antt(line);
    let Some(import) = uses(&tokens).into_iter().next() else {
        return line.to_string();
    };
    let kept: Vec<&Item> = import
        .items()
        .iter()
        .filter(|item| !names.contains(&item.brings))
        .collect();
    format!("{}{}", import.written(&kept, ""), &line[import.span.end..])
}

#[cfg(test)]
mod tests {
    use super::*;
    use crate::tree::Source;

    fn mended(path: &str, text: &str) -> String {
        let source = Source::new(path, text);
        without(text, &unused(&File::new(&source), &[]))
    }

    #[test]
    fn removes_names_and_lines() {
        let text = "-- why\nuse A.{f, g}\nuse B.{h}\nuse C as X\n\nk : ℕ\nk = f\n";
        assert_eq!(
            mended("crates/a/specs/A.antt", text),
            "-- why\nuse A.{f}\n\nk : ℕ\nk = f\n"
        );
        let text = "ghost use A.{◌≡◌, min};\nuse a::b;\nuse a::{B, C};\nfn f(b: B)\n    ensures { a ≡ b }\n{}\n";
        assert_eq!(
            mended("crates/a/src/a.rt", text),
            "ghost use A.{◌≡◌};\nuse a::B;\nfn f(b: B)\n    ensures { a ≡ b }\n{}\n"
        );
    }

    #[test]
    fn leaves_what_is_used() {
        let text = "use A.{f, ◌∷◌}\n\nk : ℕ\nk = f ∷ f\n";
        assert_eq!(mended("crates/a/specs/A.antt", text), text);
    }

    #[test]
    fn edits_follow() {
        let source = Source::new(
            "crates/a/src/a.rt",
            "ghost use A.{◌≡◌, min};\nfn f()\n    ensures { a ≡ b }\n{}\n",
        );
        let edit = Edit::new(
            "crates/a/must-fail/e.edit",
            "file: src/a.rt\nold: ghost use A.{◌≡◌, min};\nnew: ghost use A.{◌≡◌, min, max};\n",
        );
        let file = File::new(&source);
        let mut text = edit.text.clone();
        follow(&edit, &mut text, &file, &unused(&file, &[]));
        assert_eq!(
            text,
            "file: src/a.rt\nold: ghost use A.{◌≡◌};\nnew: ghost use A.{◌≡◌, max};\n"
        );
    }

    #[test]
    fn long_imports_are_broken_once() {
        let text = format!(
            "use A.{{{}}}\n",
            (0..40)
                .map(|i| format!("name{i}"))
                .collect::<Vec<_>>()
                .join(", ")
        );
        let once = broken_imports(&text, "");
        assert!(
            once.lines().count() == 3 && once.lines().all(|line| line.chars().count() <= COLUMNS)
        );
        assert_eq!(broken_imports(&once, ""), once);
    }
}
