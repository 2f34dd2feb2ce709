//! Rule 4: upper proofs use only what lower crates promise, so no file unfolds a definition that another crate of the
//! repository makes, nor names of its proofs/ more than the laws. Worked*.antt may unfold: the tables of worked cases go
//! through the definitions by design.
//!
//! Rule 6: an `abbrev pub` is open to every proof without a word. One that is no type and no operator, and that a file of
//! another crate names, says why it stays open: a comment directly above it has a line `-- Open: why`. One that nobody
//! above names is noted.

use crate::cited::paths;
use crate::decls::{Declaration, Kind};
use crate::lex::{is_operator, Token};
use crate::report::{Finding, Rule};
use crate::tree::{crate_of, File, Modules, Place, Source, Tree};
use std::collections::{BTreeSet, HashMap};

/// The crates that rule 6 holds.
const HELD: [&str; 5] = ["lookup", "wire", "reassembly", "endpoint", "detector"];

pub fn findings(tree: &Tree, modules: &Modules) -> Vec<Finding> {
    let mut found = Vec::new();
    for (at, file) in modules.files.iter().enumerate() {
        let unfolded = unfolded(&file.body)
            .into_iter()
            .chain(unfolded_by_tactics(file));
        for (line, path) in unfolded.filter(|_| !is_worked(file)) {
            if let Some(maker) =
                maker_of(modules, at, &path).filter(|maker| is_another(tree, file, maker))
            {
                let message = format!("unfolds `{path}` of {maker}");
                found.push(Finding::new(Rule::Layers, &file.source.path, line, message));
            }
        }
        for (line, path, place) in proofs_named(modules, at) {
            let source = modules.files[place].source;
            if is_another(tree, file, &source.crate_name) && is_inner(source) {
                let message = format!("names `{path}`, which is no law of {}", source.crate_name);
                found.push(Finding::new(Rule::Layers, &file.source.path, line, message));
            }
        }
    }
    found
}

/// What a file names, and where it stands: by an import, by a whole path, or for a tactic.
fn proofs_named(modules: &Modules, at: usize) -> Vec<(usize, String, usize)> {
    let file = &modules.files[at];
    let imported = file.uses.iter().filter_map(|import| {
        let place = modules.file(&import.module)?;
        Some((import.line, import.module.clone(), place))
    });
    let whole = paths(&file.body).into_iter().map(|path| (1, path));
    let by_tactics = file
        .tactics
        .iter()
        .map(|named| (named.line, named.path.clone()));
    let by_path = whole.chain(by_tactics).filter_map(|(line, path)| {
        let place = path
            .starts_with("Rattle.")
            .then(|| modules.named(at, &path))??;
        Some((line, path, place.0))
    });
    imported.chain(by_path).collect()
}

/// Written by hand, among the proofs and not among the laws. (What the toolchain makes of code, in no file here, may be named.)
fn is_inner(source: &Source) -> bool {
    let within = source.within();
    within.starts_with("proofs/") && !within.starts_with("proofs/Laws/")
}

fn unfolded_by_tactics(file: &File) -> Vec<(usize, String)> {
    let named = file.tactics.iter().filter(|named| named.unfolds);
    named
        .map(|named| (named.line, named.path.clone()))
        .collect()
}

fn is_worked(file: &File) -> bool {
    file.source
        .path
        .rsplit('/')
        .next()
        .is_some_and(|name| name.starts_with("Worked"))
}

fn is_another(tree: &Tree, file: &File, maker: &str) -> bool {
    maker != file.source.crate_name && tree.has_crate(maker)
}

/// What stands on `unfolding` lines and between `unfold` and `in`, with its line.
fn unfolded(body: &[Token]) -> Vec<(usize, String)> {
    let mut found: Vec<(usize, String)> = Vec::new();
    let mut at = 0;
    while at < body.len() {
        let opens = body[at];
        at += 1;
        if !matches!(opens.text, "unfolding" | "unfold") || opens.after_dot {
            continue;
        }
        let goes_on = |t: &Token| {
            if opens.text == "unfold" {
                t.text != "in"
            } else {
                !t.leads || t.column > opens.column
            }
        };
        while at < body.len() && goes_on(&body[at]) {
            match found.last_mut() {
                Some((_, path)) if body[at].text == "." || body[at].after_dot => {
                    path.push_str(body[at].text)
                }
                _ => found.push((body[at].line, body[at].text.to_string())),
            }
            at += 1;
        }
    }
    found
}

fn maker_of(modules: &Modules, file: usize, path: &str) -> Option<String> {
    if let Some((at, _)) = modules.named(file, path) {
        return Some(modules.files[at].source.crate_name.clone());
    }
    let head = path.split('.').next()?;
    let brings = |name: &str| name == head;
    let import = modules.files[file].uses.iter().find(|import| {
        import.items().iter().any(|item| brings(&item.brings))
            || import.module_name().is_some_and(brings)
    });
    crate_of(import.map_or(path, |import| import.module.as_str())).map(str::to_string)
}

/// The files of other crates that name a declaration, by an import or by a path.
fn users<'t>(modules: &'t Modules) -> HashMap<Place, BTreeSet<&'t str>> {
    let mut users: HashMap<Place, BTreeSet<&str>> = HashMap::new();
    for (at, file) in modules.files.iter().enumerate() {
        let imported = file.uses.iter().flat_map(|import| import.items());
        let names = imported.map(|item| item.brings.clone());
        let places = names
            .chain(paths(&file.body))
            .filter_map(|name| modules.named(at, &name));
        for place in places {
            if modules.files[place.0].source.crate_name != file.source.crate_name {
                users.entry(place).or_default().insert(&file.source.path);
            }
        }
    }
    users
}

/// The reason on the `-- Open:` line among the comments directly above a declaration.
fn reason<'t>(file: &'t File, declared: &Declaration) -> Option<&'t str> {
    let lines: Vec<&str> = file.source.text.lines().take(declared.line - 1).collect();
    let above = lines.into_iter().rev().map(str::trim);
    above
        .take_while(|line| line.starts_with("--"))
        .find_map(|line| line.strip_prefix("-- Open:"))
        .map(str::trim)
        .filter(|why| !why.is_empty())
}

/// What is open to the proofs of the crates above: refused where they name it and no reason is given, or where a reason
/// is given and they do not; noted where neither is.
pub fn open(tree: &Tree, modules: &Modules) -> Vec<Finding> {
    let users = users(modules);
    let mut found = Vec::new();
    for (at, file) in modules.files.iter().enumerate() {
        let crate_name = file.source.crate_name.as_str();
        if !tree.is_lower(crate_name) || is_of_loops(file) {
            continue;
        }
        for (number, declared) in file.declarations.iter().enumerate() {
            if !is_open(declared, &file.body) {
                continue;
            }
            let count = users.get(&(at, number)).map_or(0, BTreeSet::len);
            let why = reason(file, declared);
            if let Some((rule, what)) = judged(crate_name, count, why.is_some()) {
                let message = format!("`abbrev pub {}` {what}", declared.names[0]);
                found.push(Finding::new(
                    rule,
                    &file.source.path,
                    declared.line,
                    message,
                ));
            }
        }
    }
    found
}

/// The toolchain asks for invariants and measures in this form. No crate above can name them.
fn is_of_loops(file: &File) -> bool {
    file.source.path.ends_with("/Invariants.antt")
}

fn judged(crate_name: &str, count: usize, explained: bool) -> Option<(Rule, String)> {
    let held = HELD.contains(&crate_name);
    match (explained, count) {
        (true, 0) => Some((
            Rule::Open,
            "says why it is open, and no crate above names it".to_string(),
        )),
        (true, _) => None,
        (false, 1..) if held => Some((
            Rule::Open,
            format!("is open to the {count} files of other crates that name it, and has no `-- Open: why`"),
        )),
        (false, _) => Some((
            Rule::OpenUnnamed,
            format!("is open to upper proofs; {count} files of other crates name it"),
        )),
    }
}

fn is_open(declared: &Declaration, body: &[Token]) -> bool {
    let marked = declared.is_marked("abbrev")
        && declared.is_marked("pub")
        && declared.kind == Kind::Definition;
    marked && !is_operator(declared.names[0]) && !gives_type(declared, body)
}

/// Whether what follows the last arrow of the signature is a universe.
fn gives_type(declared: &Declaration, body: &[Token]) -> bool {
    let tokens = &body[declared.tokens.clone()];
    let name = declared.names[0];
    let opens = tokens.iter().position(|t| t.text == ":").unwrap_or(0);
    let (mut depth, mut last) = (0, opens);
    for (at, token) in tokens.iter().enumerate().skip(opens + 1) {
        match token.text {
            "(" | "{" => depth += 1,
            ")" | "}" => depth -= 1,
            "→" if depth == 0 => last = at,
            text if token.leads && (text == name || text == "unfolding") => break,
            _ => {}
        }
    }
    tokens.get(last + 1).is_some_and(|t| t.text == "Type")
}

#[cfg(test)]
mod tests {
    use super::*;

    fn tree(upper: &str, name: &str) -> Tree {
        let lower = "unfoldable pub f : ℕ → ℕ\nf x = x\n\nabbrev pub T : ℕ → Type 0\nT n = ℕ → ℕ\n\nabbrev pub g : ℕ → ℕ\ng x = x\n\nabbrev pub ◌w◌ : ℕ → ℕ → ℕ\na w b = a\n";
        let sources = vec![
            Source::new("crates/low/specs/A.antt", lower),
            Source::new("crates/low/proofs/Laws/A.antt", "pub f : ℕ\nf = 1\n"),
            Source::new("crates/low/proofs/Sizes.antt", "pub f : ℕ\nf = 1\n"),
            Source::new(name, upper),
        ];
        let crates = vec![
            ("low".to_string(), vec![]),
            ("up".to_string(), vec!["low".to_string()]),
        ];
        Tree {
            sources,
            edits: Vec::new(),
            documents: Vec::new(),
            crates,
        }
    }

    fn count(upper: &str, name: &str) -> usize {
        let tree = tree(upper, name);
        let files = tree.files();
        findings(&tree, &Modules::new(&files)).len()
    }

    #[test]
    fn unfolding_a_lower_definition() {
        let text = "use Rattle.low.specs.A.{f}\nk : f 1 ≡ 1\nunfolding f\nk = refl\n";
        assert_eq!(count(text, "crates/up/specs/B.antt"), 1);
        assert_eq!(count(text, "crates/up/specs/WorkedB.antt"), 0);
        assert_eq!(
            count(
                "use Rattle.low.specs.A as A\nk : A.f 1 ≡ 1\nk = unfold A.f in refl\n",
                "crates/up/specs/B.antt"
            ),
            1
        );
        assert_eq!(
            count(
                "f : ℕ\nf = 1\n\nk : f ≡ 1\nunfolding f\nk = refl\n",
                "crates/up/specs/B.antt"
            ),
            0
        );
        assert_eq!(
            count(
                "use lib.ListN.{take}\nk : ℕ\nunfolding take\nk = refl\n",
                "crates/up/specs/B.antt"
            ),
            0
        );
    }

    #[test]
    fn proofs_of_a_lower_crate() {
        let laws = "use Rattle.low.proofs.Laws.A.{f}\nk : ℕ\nk = f\n";
        assert_eq!(count(laws, "crates/up/proofs/B.antt"), 0);
        let inner = "use Rattle.low.proofs.Sizes.{f}\nk : ℕ\nk = f\n";
        assert_eq!(count(inner, "crates/up/proofs/WorkedB.antt"), 1);
        assert_eq!(count(inner, "crates/low/proofs/B.antt"), 0);
        let path = "k : ℕ\nk = Rattle.low.proofs.Sizes.f\n";
        assert_eq!(count(path, "crates/up/proofs/B.antt"), 1);
        let made = "use Rattle.low.proofs.detector.Detector.TheLaws as T\nk : ℕ\nk = T.size\n";
        assert_eq!(count(made, "crates/up/proofs/B.antt"), 0);
        let kit = "use Rattle.std.proofs.Common.{f}\nk : ℕ\nk = f\n";
        assert_eq!(count(kit, "crates/up/proofs/B.antt"), 0);
    }

    #[test]
    fn tactics_of_a_function() {
        let unfolding =
            "#[tactic(auto, using(low::proofs::Laws::A::f), unfolding(low::specs::A::f))]\nfn x() {}\n";
        assert_eq!(count(unfolding, "crates/up/src/b.rt"), 1);
        let inner = "#[tactic(auto, using(low::proofs::Sizes::f))]\nfn x() {}\n";
        assert_eq!(count(inner, "crates/up/src/b.rt"), 1);
        assert_eq!(count(inner, "crates/low/src/b.rt"), 0);
    }

    fn opened(lower: &str, upper: &str) -> Vec<String> {
        let sources = vec![
            Source::new("crates/wire/specs/A.antt", lower),
            Source::new("crates/up/specs/B.antt", upper),
        ];
        let crates = vec![
            ("wire".to_string(), vec![]),
            ("up".to_string(), vec!["wire".to_string()]),
        ];
        let tree = Tree {
            sources,
            edits: Vec::new(),
            documents: Vec::new(),
            crates,
        };
        let files = tree.files();
        open(&tree, &Modules::new(&files))
            .iter()
            .map(|finding| format!("{:?}: {}", finding.rule, finding.message))
            .collect()
    }

    const BY_NAME: &str = "use Rattle.wire.specs.A.{g}\nk : ℕ\nk = g 1\n";
    const BY_PATH: &str = "use Rattle.wire.specs.A as A\nk : ℕ\nk = A.g 1\n";

    #[test]
    fn open_and_named_above() {
        let refused = "Open: `abbrev pub g` is open to the 1 files of other crates that name it, and has no `-- Open: why`";
        for upper in [BY_NAME, BY_PATH] {
            assert_eq!(opened("abbrev pub g : ℕ → ℕ\ng x = x\n", upper), [refused]);
            let empty = "-- Open:\nabbrev pub g : ℕ → ℕ\ng x = x\n";
            assert_eq!(opened(empty, upper), [refused]);
            let apart = "-- Open: only data\n\nabbrev pub g : ℕ → ℕ\ng x = x\n";
            assert_eq!(opened(apart, upper), [refused]);
            let explained =
                "-- Open: only data\n-- the number itself\nabbrev pub g : ℕ → ℕ\ng x = x\n";
            assert!(opened(explained, upper).is_empty());
            assert!(opened("unfoldable pub g : ℕ → ℕ\ng x = x\n", upper).is_empty());
            assert!(opened("abbrev pub g : ℕ → Type 0\ng x = ℕ\n", upper).is_empty());
        }
    }

    #[test]
    fn a_reason_that_nothing_needs() {
        let upper = "k : ℕ\nk = 1\n";
        assert_eq!(
            opened("-- Open: only data\nabbrev pub g : ℕ\ng = 1\n", upper),
            ["Open: `abbrev pub g` says why it is open, and no crate above names it"]
        );
        assert_eq!(
            opened("abbrev pub g : ℕ\ng = 1\n", upper),
            ["OpenUnnamed: `abbrev pub g` is open to upper proofs; 0 files of other crates name it"]
        );
    }

    // the crate is not held yet
    #[test]
    fn open_definitions() {
        let tree = tree(
            "use Rattle.low.specs.A.{g}\nk : ℕ\nk = g 1\n",
            "crates/up/specs/B.antt",
        );
        let files = tree.files();
        let found = open(&tree, &Modules::new(&files));
        let messages: Vec<&str> = found
            .iter()
            .map(|finding| finding.message.as_str())
            .collect();
        assert_eq!(
            messages,
            ["`abbrev pub g` is open to upper proofs; 1 files of other crates name it"]
        );
    }
}
