//! Rule 2: every declaration serves something that is meant to stand: a contract, the proof of one, a theorem that the
//! documents name, or a must-fail edit. What none of these comes to, through any number of citations, nobody cites.

use crate::decls::{Declaration, Kind};
use crate::lex::{antt, is_operator, Token};
use crate::report::{Finding, Rule};
use crate::tree::{File, Kind as Language, Modules, Place, Tree};
use crate::uses::Usage;
use std::collections::HashSet;

/// What nobody cites.
pub fn uncited(tree: &Tree, modules: &Modules) -> Vec<Place> {
    let scopes: Vec<Vec<&str>> = modules.files.iter().map(operators).collect();
    let mut reached: HashSet<Place> = HashSet::new();
    let mut next = roots(tree, modules);
    while let Some(place) = next.pop() {
        if reached.insert(place) {
            next.extend(citations(modules, &scopes, place));
        }
    }
    let places = |(at, file): (usize, &File)| -> Vec<Place> {
        (0..file.declarations.len())
            .map(|number| (at, number))
            .collect()
    };
    let all = modules.files.iter().enumerate().flat_map(places);
    all.filter(|place| !reached.contains(place)).collect()
}

pub fn findings(tree: &Tree, modules: &Modules) -> Vec<Finding> {
    let scopes: Vec<Vec<&str>> = modules.files.iter().map(operators).collect();
    let places = uncited(tree, modules);
    let mut in_vain: HashSet<Place> = HashSet::new();
    for place in &places {
        let cited = citations(modules, &scopes, *place).into_iter();
        in_vain.extend(cited.filter(|cited| cited != place));
    }
    let finding = |place: Place| {
        let file = &modules.files[place.0];
        let declared = &file.declarations[place.1];
        let who = if in_vain.contains(&place) {
            "only what nobody cites"
        } else {
            "nobody"
        };
        let message = format!("{who} cites `{}`", declared.names[0]);
        Finding::new(Rule::Uncited, &file.source.path, declared.line, message)
    };
    places.into_iter().map(finding).collect()
}

/// The operators in a file's scope: their parts are looked for, not their names.
fn operators<'t>(file: &'t File) -> Vec<&'t str> {
    let brought = file
        .uses
        .iter()
        .flat_map(|import| import.items())
        .map(|item| item.brings.as_str());
    let own = file
        .declarations
        .iter()
        .flat_map(|declared| declared.names.iter().copied());
    brought
        .chain(own)
        .filter(|name| is_operator(name))
        .collect()
}

fn citations(modules: &Modules, scopes: &[Vec<&str>], place: Place) -> Vec<Place> {
    let file = &modules.files[place.0];
    let declared = &file.declarations[place.1];
    let mut tokens: Vec<Token> = file.body[declared.tokens.clone()].to_vec();
    for section in &declared.sections {
        tokens.extend_from_slice(&file.body[section.clone()]);
    }
    let usage = Usage::of(&tokens);
    let named = scopes[place.0]
        .iter()
        .filter(|name| usage.has_name(name))
        .map(|name| name.to_string());
    paths(&tokens)
        .into_iter()
        .chain(named)
        .filter_map(|path| modules.named(place.0, &path))
        .collect()
}

/// Every word with the path that follows it: `T.the-row`.
pub fn paths(tokens: &[Token]) -> Vec<String> {
    let mut found: Vec<String> = Vec::new();
    for (at, token) in tokens.iter().enumerate() {
        let tight = at > 0 && tokens[at - 1].end() == token.start;
        match found.last_mut() {
            Some(path) if tight && (token.text == "." || token.after_dot) && !path.is_empty() => {
                path.push_str(token.text)
            }
            _ if token.is_word() && !token.after_dot => found.push(token.text.to_string()),
            // a bracket or a space between: what follows a dot there is a field
            _ => found.push(String::new()),
        }
    }
    found.retain(|path| !path.is_empty());
    found
        .iter()
        .map(|path| path.trim_end_matches('.').to_string())
        .collect()
}

fn roots(tree: &Tree, modules: &Modules) -> Vec<Place> {
    let mut found = Vec::new();
    let written = words_of_documents(&tree.documents);
    for (at, file) in modules.files.iter().enumerate() {
        if file.source.kind == Language::Rattle {
            let names = file.uses.iter().flat_map(|import| import.items());
            found.extend(names.filter_map(|item| modules.named(at, &item.brings)));
            let by_tactics = file.tactics.iter();
            found.extend(by_tactics.filter_map(|named| modules.named(at, &named.path)));
        }
        let stands = |declared: &Declaration| {
            declared.kind == Kind::Other
                || is_proof(file, declared)
                || declared.names.iter().any(|name| written.contains(*name))
        };
        found.extend(
            (0..file.declarations.len())
                .filter(|number| stands(&file.declarations[*number]))
                .map(|number| (at, number)),
        );
    }
    found.extend(edited(tree, modules));
    found
}

/// The files of a function's own folder of proofs/.
const PROOFS: [&str; 3] = ["/Answers.antt", "/Invariants.antt", "/Proof.antt"];

/// What the toolchain asks for: the answers and invariants in a function's own proof files.
fn is_proof(file: &File, declared: &Declaration) -> bool {
    let path = &file.source.path;
    PROOFS.iter().any(|name| path.ends_with(name)) && declared.is_marked("pub")
}

/// It lists what changed with the toolchain, old names beside new ones: that is no reason for a lemma to stand.
const HISTORY: &str = "docs/PORT.md";

/// The words in backquotes, with the ends of paths: `Sum.total` names `total`.
fn words_of_documents(documents: &[(String, String)]) -> HashSet<String> {
    let mut words = HashSet::new();
    for (_, document) in documents.iter().filter(|(path, _)| path != HISTORY) {
        for code in document.split('`').skip(1).step_by(2) {
            words.extend(
                antt(code)
                    .iter()
                    .filter(|t| t.is_word())
                    .map(|t| t.text.to_string()),
            );
        }
    }
    words
}

/// What a must-fail edit names, and the declarations that it changes.
fn edited(tree: &Tree, modules: &Modules) -> Vec<Place> {
    let mut found = Vec::new();
    for pair in tree.edits.iter().flat_map(|edit| &edit.pairs) {
        let Some(at) = modules
            .files
            .iter()
            .position(|file| file.source.path == pair.file)
        else {
            continue;
        };
        let file = &modules.files[at];
        found.extend(
            paths(&antt(&pair.new))
                .iter()
                .filter_map(|path| modules.named(at, path)),
        );
        if let Some(place) = file.source.text.find(&pair.old) {
            let meets = |declared: &Declaration| {
                let tokens = &file.body[declared.tokens.clone()];
                tokens[0].start < place + pair.old.len() && place < tokens[tokens.len() - 1].end()
            };
            found.extend(
                (0..file.declarations.len())
                    .filter(|number| meets(&file.declarations[*number]))
                    .map(|number| (at, number)),
            );
        }
    }
    found
}

#[cfg(test)]
mod tests {
    use super::*;
    use crate::edits::Edit;
    use crate::tree::Source;

    fn messages(sources: &[(&str, &str)], document: &str, edit: &str) -> Vec<String> {
        let sources = sources
            .iter()
            .map(|(path, text)| Source::new(path, text))
            .collect();
        let edits = vec![Edit::new("crates/a/must-fail/e.edit", edit)];
        let tree = Tree {
            sources,
            edits,
            documents: vec![("README.md".to_string(), document.to_string())],
            crates: Vec::new(),
        };
        let files = tree.files();
        findings(&tree, &Modules::new(&files))
            .into_iter()
            .map(|finding| finding.message)
            .collect()
    }

    const LAWS: (&str, &str) = (
        "crates/a/specs/A.antt",
        "f : ℕ\nf = g\n\ng : ℕ\ng = 1\n\n◌+'◌ : ℕ → ℕ → ℕ\na +' b = a\n",
    );

    #[test]
    fn a_lemma_that_only_uncited_ones_cite() {
        assert_eq!(
            messages(&[LAWS], "", ""),
            [
                "nobody cites `f`",
                "only what nobody cites cites `g`",
                "nobody cites `◌+'◌`"
            ]
        );
    }

    #[test]
    fn documents_and_edits_cite() {
        assert_eq!(
            messages(&[LAWS], "the law `A.f`", ""),
            ["nobody cites `◌+'◌`"]
        );
        assert_eq!(
            messages(
                &[LAWS],
                "the law f",
                "file: specs/A.antt\nold: g = 1\nnew: g = 2\n"
            ),
            ["nobody cites `f`", "nobody cites `◌+'◌`"]
        );
    }

    #[test]
    fn contracts_and_proofs_cite() {
        let contract = ("crates/a/src/a.rt", "ghost use Rattle.a.specs.A.{f};\n");
        assert_eq!(messages(&[LAWS, contract], "", ""), ["nobody cites `◌+'◌`"]);
        let tactic = (
            "crates/a/src/a.rt",
            "#[tactic(auto, using(crate::specs::A::f))]\nfn x() {}\n",
        );
        assert_eq!(messages(&[LAWS, tactic], "", ""), ["nobody cites `◌+'◌`"]);
        let proof = ("crates/a/proofs/a/Answers.antt", "use Rattle.a.specs.A as X\nuse Rattle.a.specs.A.{◌+'◌}\n\nlost : ℕ\nlost = 2\n\npub returns : ℕ\nreturns = 1 +' X.g\n");
        assert_eq!(
            messages(&[LAWS, proof], "", ""),
            ["nobody cites `f`", "nobody cites `lost`"]
        );
    }

    #[test]
    fn a_field_is_no_citation() {
        assert_eq!(paths(&antt("c.f (T.g x).h c .f")), ["c.f", "T.g", "x", "c"]);
    }
}
