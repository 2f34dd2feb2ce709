//! Takes out what nobody cites, with the comment above it, the fixity of an operator that goes, and a section in which
//! nothing is left. Nothing that stays names what goes: that is how it was found.

use crate::cited::uncited;
use crate::fix::{without, write_if_new};
use crate::imports::Unused;
use crate::tree::{File, Modules, Place, Tree};
use crate::uses::Item;
use std::collections::HashSet;
use std::io;
use std::path::Path;

/// The number of files changed. What passes a name on goes first, and what it named when there is no such line.
pub fn prune(root: &Path, tree: &Tree) -> io::Result<usize> {
    let files = tree.files();
    let modules = Modules::new(&files);
    let gone: HashSet<Place> = uncited(tree, &modules).into_iter().collect();
    let passing: Vec<Vec<Unused>> = files
        .iter()
        .map(|file| passed_on(&modules, file, &gone))
        .collect();
    let first = passing.iter().any(|lost| !lost.is_empty());
    let mut changed = 0;
    for (at, file) in files.iter().enumerate() {
        let numbers = gone
            .iter()
            .filter(|place| place.0 == at)
            .map(|place| place.1)
            .collect();
        let text = if first {
            without(&file.source.text, &passing[at])
        } else {
            pruned(file, &numbers)
        };
        changed += write_if_new(&root.join(&file.source.path), &file.source.text, &text)?;
    }
    Ok(changed)
}

/// The `pub use` lines with names that go.
fn passed_on(modules: &Modules, file: &File, gone: &HashSet<Place>) -> Vec<Unused> {
    let mut found = Vec::new();
    for import in file.uses.iter().filter(|import| import.is_public()) {
        let is_gone = |item: &&Item| {
            modules
                .declared(&import.module, &item.name)
                .is_some_and(|place| gone.contains(&place))
        };
        let (lost, kept): (Vec<&Item>, Vec<&Item>) = import.items().iter().partition(is_gone);
        if !lost.is_empty() {
            let names = lost.iter().map(|item| item.brings.clone()).collect();
            found.push(Unused {
                line: import.line,
                names,
                span: import.span.clone(),
                without: import.written(&kept, ""),
            });
        }
    }
    found
}

fn pruned(file: &File, gone: &HashSet<usize>) -> String {
    if gone.is_empty() {
        return file.source.text.clone();
    }
    let lines: Vec<&str> = file.source.text.lines().collect();
    let mut out = vec![false; lines.len()];
    for (first, last) in extents(file, gone) {
        let above = lines[..first].iter().rev();
        let first = first - above.take_while(|line| goes_with_the_next(line)).count();
        let blank = lines
            .get(last + 1)
            .is_some_and(|line| line.trim().is_empty());
        out[first..=last + usize::from(blank)].fill(true);
    }
    let kept = lines.iter().zip(&out).filter(|(_, out)| !**out);
    let kept: Vec<&str> = kept.map(|(line, _)| *line).collect();
    kept.join("\n").trim_end().to_string() + "\n"
}

/// A comment or a fixity right above a declaration is its own.
fn goes_with_the_next(line: &str) -> bool {
    let text = line.trim_start();
    text.starts_with("--") || text.starts_with("infix")
}

/// First and last line, from 0, of what goes: declarations, and the heads of sections that keep none.
fn extents(file: &File, gone: &HashSet<usize>) -> Vec<(usize, usize)> {
    let lines = |tokens: &std::ops::Range<usize>| {
        (
            file.body[tokens.start].line - 1,
            file.body[tokens.end - 1].line - 1,
        )
    };
    let mut kept_sections = HashSet::new();
    for (number, declared) in file.declarations.iter().enumerate() {
        if !gone.contains(&number) {
            kept_sections.extend(declared.sections.iter().map(|section| section.start));
        }
    }
    let mut found = HashSet::new();
    for number in gone {
        let declared = &file.declarations[*number];
        found.insert(lines(&declared.tokens));
        found.extend(
            declared
                .sections
                .iter()
                .filter(|section| !kept_sections.contains(&section.start))
                .map(lines),
        );
    }
    found.into_iter().collect()
}

#[cfg(test)]
mod tests {
    use super::*;
    use crate::tree::Source;

    const FILE: &str = "-- the file\nuse A.{f}\n\n-- kept\na : ℕ\na = 1\n\n-- an operator\n-- of two lines\ninfix 20 ◌w◌\n◌w◌ : ℕ → ℕ → ℕ\nx w y = x\n\nmodule _ (n : ℕ)\n    (m : ℕ) where\n  b : ℕ\n  b =\n    n\n\n  c : ℕ\n  c = m\n";

    fn less(numbers: &[usize]) -> String {
        let source = Source::new("crates/a/specs/A.antt", FILE);
        pruned(&File::new(&source), &numbers.iter().copied().collect())
    }

    #[test]
    fn a_declaration_in_a_section() {
        let text = less(&[2]);
        assert!(
            text.ends_with("    (m : ℕ) where\n  c : ℕ\n  c = m\n") && text.contains("x w y = x")
        );
    }

    #[test]
    fn a_name_that_is_passed_on() {
        let passing = "pub use Rattle.a.specs.A.{a, b as z}\n";
        let sources = [
            Source::new("crates/a/specs/A.antt", FILE),
            Source::new("crates/a/specs/B.antt", passing),
        ];
        let files: Vec<File> = sources.iter().map(File::new).collect();
        let modules = Modules::new(&files);
        let lost = |place| passed_on(&modules, &files[1], &HashSet::from([place]));
        assert_eq!(
            without(passing, &lost((0, 2))),
            "pub use Rattle.a.specs.A.{a}\n"
        );
        assert!(lost((0, 3)).is_empty());
    }

    #[test]
    fn a_whole_section() {
        assert!(less(&[2, 3]).ends_with("x w y = x\n"));
    }

    #[test]
    fn an_operator_with_its_fixity() {
        let text = less(&[1]);
        assert!(
            !text.contains("◌w◌")
                && !text.contains("an operator")
                && text.contains("a = 1\n\nmodule")
        );
    }
}
