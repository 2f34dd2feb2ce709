//! Rule 3: `specs/*.antt` are what a reader believes, the laws and proofs of `proofs/` are the second storey, and so would
//! be a folder below specs/. No file of the first storey imports the second, or proves something; and a contract cites the
//! first alone.

use crate::decls::Declaration;
use crate::report::{Finding, Rule};
use crate::tree::{crate_of, steps_of, File, Kind, Source, Tree};

/// Terms that prove.
const PROVES: [&str; 8] = [
    "rw",
    "omega",
    "simp",
    "cc",
    "search",
    "grind",
    "ground",
    "assumption",
];

pub fn findings(tree: &Tree, files: &[File]) -> Vec<Finding> {
    let mut found = Vec::new();
    for file in files.iter().filter(|file| is_first(file)) {
        if is_first_spec(file.source) {
            found.extend(proofs(file));
        }
        for import in file
            .uses
            .iter()
            .filter(|import| is_second(tree, &import.module))
        {
            let who = if file.source.kind == Kind::Rattle {
                "a contract"
            } else {
                "a file of the first storey"
            };
            let message = format!("{who} imports `{}`", import.module);
            found.push(Finding::new(
                Rule::Storeys,
                &file.source.path,
                import.line,
                message,
            ));
        }
    }
    found
}

fn is_first(file: &File) -> bool {
    let within = file.source.within();
    within.starts_with("src/") || (within.starts_with("specs/") && within.matches('/').count() == 1)
}

/// A file of the first storey with definitions and statements.
pub fn is_first_spec(source: &Source) -> bool {
    let within = source.within();
    let name = within.strip_prefix("specs/").unwrap_or("/");
    source.kind == Kind::Antt && !name.contains('/') && !["Lib.antt", "Laws.antt"].contains(&name)
}

/// A definition may unfold others, and `refl` may fill an equation that its record asks for. All else that proves belongs into the second storey.
fn proofs(file: &File) -> Vec<Finding> {
    let mut found = Vec::new();
    for declared in &file.declarations {
        let tokens = declared.tokens.clone();
        for at in tokens.filter(|at| !file.body[*at].after_dot) {
            let (word, next) = (&file.body[at], file.body.get(at + 1));
            let is_field = next.is_some_and(|t| [";", "}"].contains(&t.text));
            let is_proof = match word.text {
                "unfolding" => word.leads && !is_definition(declared),
                "refl" => !(is_field && is_definition(declared)),
                text => PROVES.contains(&text),
            };
            if is_proof {
                let message = format!("a proof in the first storey: `{}`", word.text);
                found.push(Finding::new(
                    Rule::Storeys,
                    &file.source.path,
                    word.line,
                    message,
                ));
            }
        }
    }
    found
}

fn is_definition(declared: &Declaration) -> bool {
    declared.is_marked("abbrev") || declared.is_marked("unfoldable")
}

/// A module of the repository in a folder below specs/, one of proofs/, or one of the proof library. What the code declares is none of them.
fn is_second(tree: &Tree, module: &str) -> bool {
    if module.starts_with("borrow.") {
        return true;
    }
    if !crate_of(module).is_some_and(|name| tree.has_crate(name)) {
        return false;
    }
    match steps_of(module).as_slice() {
        ["specs", "declared", ..] => false,
        ["specs", _, _, ..] | ["proofs", ..] => true,
        _ => false,
    }
}

#[cfg(test)]
mod tests {
    use super::*;
    use crate::tree::Source;

    fn count(path: &str, text: &str) -> usize {
        let source = Source::new(path, text);
        let crates = ["a", "b"].map(|name| (name.to_string(), Vec::new()));
        let tree = Tree {
            sources: Vec::new(),
            edits: Vec::new(),
            documents: Vec::new(),
            crates: crates.to_vec(),
        };
        findings(&tree, &[File::new(&source)]).len()
    }

    #[test]
    fn the_first_storey_imports_itself() {
        assert_eq!(count("crates/a/specs/A.antt", "use Rattle.b.specs.B.{c}\nuse Rattle.b.specs.declared.x.Y.the-variants as Y\nuse lib.ListN.Laws.{f}\nuse Rattle.std.proofs.Math.Seq.{g}\n"), 0);
        assert_eq!(
            count(
                "crates/a/specs/A.antt",
                "use Rattle.b.proofs.Laws.B.{c}\nuse Rattle.a.specs.Runs.B as B\n"
            ),
            2
        );
        assert_eq!(
            count("crates/a/specs/A.antt", "use Rattle.b.proofs.B.{c}\n"),
            1
        );
        assert_eq!(
            count(
                "crates/a/proofs/Laws/A.antt",
                "use Rattle.b.proofs.Laws.B.{c}\n"
            ),
            0
        );
    }

    #[test]
    fn the_first_storey_proves_nothing() {
        let first = |text: &str| count("crates/a/specs/A.antt", text);
        assert_eq!(first("unfoldable pub f : N\nunfolding N\nf = record { x = tt; same = λ i. refl; also = refl }\n"), 0);
        assert_eq!(first("pub law : f ≡ g\nunfolding f\nlaw = refl\n"), 2);
        assert_eq!(first("abbrev pub law : f ≡ g\nlaw = refl\n"), 1);
        assert_eq!(first("pub law : f ≡ g\nlaw x = rw [h] omega\n"), 2);
        assert_eq!(first("pub law : f ≡ g\nlaw x = grind arith\n"), 1);
        assert_eq!(first("use borrow.Author.Tests.{eqb-true}\n"), 1);
        let law = "pub law : f ≡ g\nunfolding f\nlaw = refl\n";
        assert_eq!(count("crates/a/proofs/Laws/A.antt", law), 0);
    }

    #[test]
    fn contracts_cite_the_first_storey() {
        assert_eq!(
            count(
                "crates/a/src/a.rt",
                "ghost use Rattle.a.proofs.Laws.B.{c};\n"
            ),
            1
        );
        assert_eq!(
            count(
                "crates/a/src/a.rt",
                "ghost use Rattle.a.specs.B.{c};\nuse b::proofs::c;\n"
            ),
            0
        );
    }
}
