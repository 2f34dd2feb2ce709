//! Rule 8: what the pages on the proofs name is there. A name in backquotes stands in some source; one behind a module's or a
//! record's, as `Laws/Sum.sealed`, in a file of that module or record; and a file of the crates that is named is there.

use crate::decls;
use crate::lex::antt;
use crate::report::{Finding, Rule};
use crate::tree::{File, Kind, Source, Tree};
use std::collections::{HashMap, HashSet};

const DOCUMENTS: [&str; 2] = ["docs/PROOFS.md", "docs/RUNS.md"];
/// A call of the header's alone begins so.
const OF_C: &str = "niulassenc_";

/// The words of the sources: of all, and of each module or type by its name.
struct Words<'t> {
    all: HashSet<&'t str>,
    of: HashMap<&'t str, HashSet<&'t str>>,
}

pub fn findings(tree: &Tree, files: &[File]) -> Vec<Finding> {
    let words = Words::new(tree, files);
    let mut found = Vec::new();
    for path in DOCUMENTS {
        for (number, line) in tree.document(path).lines().enumerate() {
            let codes = line.split('`').skip(1).step_by(2);
            for code in codes.filter(|code| !stands(tree, &words, code)) {
                let message = format!("`{code}` stands in no source");
                found.push(Finding::new(Rule::Named, path, number + 1, message));
            }
        }
    }
    found
}

impl<'t> Words<'t> {
    fn new(tree: &'t Tree, files: &'t [File]) -> Words<'t> {
        let mut words = Words {
            all: HashSet::new(),
            of: HashMap::new(),
        };
        for file in files {
            let own = words_of(file.source);
            let types = file.declarations.iter();
            let types = types.filter(|declared| declared.kind == decls::Kind::Type);
            let names = types.map(|declared| declared.names[0]);
            for name in names.chain([module(file.source)]) {
                words.of.entry(name).or_default().extend(&own);
            }
            let steps = file.source.path.split(['/', '.']);
            words.all.extend(own.into_iter().chain(steps));
        }
        let edits = tree.edits.iter();
        words
            .all
            .extend(edits.flat_map(|edit| edit.path.split(['/', '.'])));
        words
    }
}

fn module(source: &Source) -> &str {
    let file = source.path.rsplit('/').next().unwrap_or("");
    file.split('.').next().unwrap_or("")
}

fn words_of(source: &Source) -> HashSet<&str> {
    match source.kind {
        Kind::Antt => antt(&source.text).iter().map(|token| token.text).collect(),
        Kind::Rattle => {
            let is_letter = |c: char| c.is_alphanumeric() || c == '_';
            source.text.split(|c| !is_letter(c)).collect()
        }
    }
}

/// Whether what a page names is there. Commands, formulas and what is named with a `..` are passed over.
fn stands(tree: &Tree, words: &Words, code: &str) -> bool {
    let is_name = |c: char| c.is_alphanumeric() || "_-'′./:".contains(c);
    if !code.contains(char::is_alphabetic) || !code.chars().all(is_name) || code.contains("..") {
        return true;
    }
    let is_file = [".antt", ".rt"].iter().any(|end| code.ends_with(end));
    if is_file {
        let ends = format!("/{code}");
        return tree
            .sources
            .iter()
            .any(|source| source.path.ends_with(&ends));
    }
    if code.starts_with(OF_C) || code.contains(".txt") || code.starts_with("scripts/") {
        return true;
    }
    let path = code.replace("::", ".");
    let steps: Vec<&str> = path
        .split(['/', '.'])
        .filter(|step| !step.is_empty())
        .collect();
    let mut inside = path.rsplit('/').next().unwrap_or("").split('.');
    let in_module = match (inside.next(), inside.next()) {
        (Some(module), Some(name)) => words.of.get(module).is_none_or(|own| own.contains(name)),
        _ => true,
    };
    in_module && steps.iter().all(|step| words.all.contains(step))
}

#[cfg(test)]
mod tests {
    use super::*;

    fn lost(document: &str) -> Vec<String> {
        let sources = vec![
            Source::new(
                "crates/wire/proofs/Laws/Sum.antt",
                "pub record Told : Type 0 where\n  pub sealed : ℕ -- gone\n",
            ),
            Source::new("crates/wire/src/sum.rt", "fn sum() {}\n"),
        ];
        let tree = Tree {
            sources,
            edits: Vec::new(),
            documents: vec![(DOCUMENTS[0].to_string(), document.to_string())],
            crates: Vec::new(),
        };
        findings(&tree, &tree.files())
            .into_iter()
            .map(|finding| finding.message)
            .collect()
    }

    #[test]
    fn names_that_stand() {
        let text = "by `Laws/Sum.sealed`, `Told.sealed`, `sealed` and `sum::sum` in `wire`, `Laws/Sum.antt`, `rt ci`, `s ≡ gone`, `Is..`\n";
        assert!(lost(text).is_empty());
    }

    #[test]
    fn names_that_do_not() {
        let text = "`gone`, `Told.sum`, `Laws/Gone.antt`, `wire/gone`\n";
        assert_eq!(lost(text).len(), 4);
    }
}
