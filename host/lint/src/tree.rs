//! The repository as the rules see it: every source with its tokens, imports and declarations.

use crate::decls::{declarations, Declaration};
use crate::edits::Edit;
use crate::lex::{antt, Token};
use crate::rattle::{tactics, Named};
use crate::uses::{outside, uses, Use};
use std::collections::HashMap;
use std::path::{Component, Path, PathBuf};
use std::{fs, io};

#[derive(Clone, Copy, Debug, PartialEq)]
pub enum Kind {
    Antt,
    Rattle,
}

pub struct Source {
    /// From the repository's root, with `/`.
    pub path: String,
    pub crate_name: String,
    pub kind: Kind,
    pub text: String,
}

impl Source {
    pub fn new(path: &str, text: &str) -> Source {
        let crate_name = path.split('/').nth(1).unwrap_or("").to_string();
        let kind = if path.ends_with(".rt") {
            Kind::Rattle
        } else {
            Kind::Antt
        };
        Source {
            path: path.to_string(),
            crate_name,
            kind,
            text: text.to_string(),
        }
    }

    /// The path inside its crate: `proofs/Laws/Sum.antt`.
    pub fn within(&self) -> &str {
        self.path.splitn(3, '/').nth(2).unwrap_or("")
    }
}

/// A source taken apart. Of a .rt file, the tokens are those of its clauses and of its `ghost use` lines.
pub struct File<'a> {
    pub source: &'a Source,
    pub uses: Vec<Use>,
    /// What stands outside the imports.
    pub body: Vec<Token<'a>>,
    pub declarations: Vec<Declaration<'a>>,
    /// Which declaration a name of this file belongs to.
    pub names: HashMap<&'a str, usize>,
    /// What the `#[tactic(..)]` lines of a .rt file name.
    pub tactics: Vec<Named>,
}

impl<'a> File<'a> {
    pub fn new(source: &'a Source) -> File<'a> {
        let tokens = antt(&source.text);
        let found = uses(&tokens);
        if source.kind == Kind::Rattle {
            let uses = found
                .into_iter()
                .filter(|import| import.marks.contains("ghost"))
                .collect();
            return File {
                source,
                uses,
                body: Vec::new(),
                declarations: Vec::new(),
                names: HashMap::new(),
                tactics: tactics(&source.text, &source.crate_name),
            };
        }
        let body = outside(&tokens, &found);
        let declarations = declarations(&body);
        let owned = declarations.iter().enumerate();
        let names = owned
            .flat_map(|(at, declared)| declared.names.iter().map(move |name| (*name, at)))
            .collect();
        File {
            source,
            uses: found,
            body,
            declarations,
            names,
            tactics: Vec::new(),
        }
    }
}

pub struct Tree {
    pub sources: Vec<Source>,
    pub edits: Vec<Edit>,
    /// By their paths.
    pub documents: Vec<(String, String)>,
    /// Each crate and those that it may name.
    pub crates: Vec<(String, Vec<String>)>,
}

impl Tree {
    pub fn load(root: &Path) -> io::Result<Tree> {
        let listing = fs::read_to_string(root.join("crates.txt"))?;
        let mut tree = Tree {
            sources: Vec::new(),
            edits: Vec::new(),
            documents: Vec::new(),
            crates: crates_of(&listing),
        };
        let mut paths = Vec::new();
        walk(&root.join("crates"), &mut paths)?;
        paths.retain(|path| !is_made(root, path));
        walk(&root.join("docs"), &mut paths)?;
        paths.push(root.join("README.md"));
        paths.sort();
        for path in paths {
            let name = path
                .strip_prefix(root)
                .unwrap_or(&path)
                .to_string_lossy()
                .replace('\\', "/");
            if name.ends_with(".antt") || name.ends_with(".rt") {
                tree.sources
                    .push(Source::new(&name, &fs::read_to_string(&path)?));
            } else if name.ends_with(".edit") {
                tree.edits
                    .push(Edit::new(&name, &fs::read_to_string(&path)?));
            } else if name.ends_with(".md") {
                let text = fs::read_to_string(&path)?;
                tree.documents.push((name, text));
            }
        }
        Ok(tree)
    }

    pub fn document(&self, path: &str) -> &str {
        let found = self.documents.iter().find(|(name, _)| name == path);
        found.map_or("", |(_, text)| text)
    }

    pub fn files(&self) -> Vec<File<'_>> {
        self.sources.iter().map(File::new).collect()
    }

    /// Whether it is a crate of this repository.
    pub fn has_crate(&self, name: &str) -> bool {
        self.crates.iter().any(|(own, _)| own == name)
    }

    /// Whether another crate of the repository stands on this one.
    pub fn is_lower(&self, name: &str) -> bool {
        self.crates
            .iter()
            .any(|(_, below)| below.iter().any(|b| b == name))
    }
}

fn crates_of(listing: &str) -> Vec<(String, Vec<String>)> {
    let line = |line: &str| {
        let (name, below) = line.split_once(':')?;
        Some((
            name.split_whitespace().next()?.to_string(),
            below.split_whitespace().map(str::to_string).collect(),
        ))
    };
    listing
        .lines()
        .filter(|l| !l.trim_start().starts_with('#'))
        .filter_map(line)
        .collect()
}

/// Whether rt wrote a file: below crates/NAME/out.
fn is_made(root: &Path, path: &Path) -> bool {
    let inside = path.strip_prefix(root).unwrap_or(path);
    inside.components().nth(2) == Some(Component::Normal("out".as_ref()))
}

fn walk(folder: &Path, paths: &mut Vec<PathBuf>) -> io::Result<()> {
    for entry in fs::read_dir(folder)? {
        let path = entry?.path();
        if path.is_dir() {
            walk(&path, paths)?;
        } else {
            paths.push(path);
        }
    }
    Ok(())
}

/// Something declared in the repository: the file's place in the list, the declaration's in the file.
pub type Place = (usize, usize);

/// From module paths to files, so that a name is followed to where it is declared.
pub struct Modules<'t> {
    pub files: &'t [File<'t>],
    by_path: HashMap<String, usize>,
}

impl<'t> Modules<'t> {
    pub fn new(files: &'t [File<'t>]) -> Modules<'t> {
        let mut by_path = HashMap::new();
        for (at, file) in files
            .iter()
            .enumerate()
            .filter(|(_, file)| file.source.kind == Kind::Antt)
        {
            let Some((folder, rest)) = file.source.within().split_once('/') else {
                continue;
            };
            let rest = rest.trim_end_matches(".antt").replace('/', ".");
            let name = &file.source.crate_name;
            by_path.insert(format!("Rattle.{name}.{folder}.{rest}"), at);
        }
        Modules { files, by_path }
    }

    /// The file of a module, if it has one here.
    pub fn file(&self, module: &str) -> Option<usize> {
        self.by_path.get(module).copied()
    }

    /// Where a module's name is declared, through `pub use` lines.
    pub fn declared(&self, module: &str, name: &str) -> Option<Place> {
        let mut at = (module.to_string(), name.to_string());
        for _ in 0..8 {
            let number = *self.by_path.get(&at.0)?;
            let file = &self.files[number];
            if let Some(&declaration) = file.names.get(at.1.as_str()) {
                return Some((number, declaration));
            }
            at = passed_on(file, &at.1)?;
        }
        None
    }

    /// Where a name that a file writes is declared: `name` itself, or the end of a path.
    pub fn named(&self, file: usize, path: &str) -> Option<Place> {
        let here = &self.files[file];
        let (head, rest) = path.split_once('.').unwrap_or((path, ""));
        if let Some(&declaration) = here.names.get(head) {
            return Some((file, declaration));
        }
        let bringing = |import: &'t Use| {
            import
                .items()
                .iter()
                .find(|item| item.brings == head)
                .map(|item| (import, item))
        };
        if let Some((import, item)) = here.uses.iter().find_map(bringing) {
            return self.declared(&import.module, &item.name);
        }
        let module = here
            .uses
            .iter()
            .find(|import| import.module_name() == Some(head));
        let (module, rest) = module.map_or((head, rest), |import| (import.module.as_str(), rest));
        self.along(module, rest)
    }

    /// A path below a module: some of it may be modules, then comes a name.
    fn along(&self, module: &str, rest: &str) -> Option<Place> {
        let (name, further) = rest.split_once('.').unwrap_or((rest, ""));
        if name.is_empty() {
            return None;
        }
        self.declared(module, name)
            .or_else(|| self.along(&format!("{module}.{name}"), further))
    }
}

fn passed_on(file: &File, name: &str) -> Option<(String, String)> {
    let passing = file.uses.iter().filter(|import| import.is_public());
    passing
        .flat_map(|import| import.items().iter().map(move |item| (import, item)))
        .find(|(_, item)| item.brings == name)
        .map(|(import, item)| (import.module.clone(), item.name.clone()))
}

/// The crate that a module path begins with, of this repository or of the kit.
pub fn crate_of(module: &str) -> Option<&str> {
    module.strip_prefix("Rattle.")?.split('.').next()
}

/// A module path behind its crate: `specs`, `Sum`.
pub fn steps_of(module: &str) -> Vec<&str> {
    module.split('.').skip(2).collect()
}

#[cfg(test)]
mod tests {
    use super::*;

    #[test]
    fn follows_names_to_their_declaration() {
        let sources = [
            Source::new("crates/low/specs/A.antt", "f : ℕ\nf = 1\n"),
            Source::new(
                "crates/low/proofs/Laws/B.antt",
                "pub use Rattle.low.specs.A.{f as g}\n",
            ),
            Source::new(
                "crates/up/specs/C.antt",
                "use Rattle.low.proofs.Laws.B.{g as h}\nuse Rattle.low.specs.A as X\nk : ℕ\nk = h\n",
            ),
        ];
        let files: Vec<File> = sources.iter().map(File::new).collect();
        let modules = Modules::new(&files);
        assert_eq!(modules.named(2, "h"), Some((0, 0)));
        assert_eq!(modules.named(2, "X.f"), Some((0, 0)));
        assert_eq!(modules.named(2, "Rattle.low.specs.A.f"), Some((0, 0)));
        assert_eq!(modules.named(2, "k"), Some((2, 0)));
        assert_eq!(modules.named(2, "g"), None);
        assert_eq!(modules.named(2, "X.none"), None);
    }

    #[test]
    fn crates_by_path() {
        assert_eq!(crate_of("Rattle.wire.specs.Sum"), Some("wire"));
        assert_eq!(
            steps_of("Rattle.wire.proofs.Laws.Sum"),
            ["proofs", "Laws", "Sum"]
        );
        assert_eq!(crate_of("lib.ListN"), None);
    }

    #[test]
    fn lower_crates() {
        let crates = crates_of("# who\nwire: bytes\nendpoint staticlib: wire\n");
        let tree = Tree {
            sources: Vec::new(),
            edits: Vec::new(),
            documents: Vec::new(),
            crates,
        };
        assert!(tree.is_lower("wire") && !tree.is_lower("endpoint") && tree.has_crate("endpoint"));
    }
}
