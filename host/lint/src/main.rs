//! What the prover does not ask of the sources, and the tests do.
//!
//!     lint [--fix] [--prune] [--break] [--notes] [--strict] [ROOT]
//!
//! Each finding is printed as `file:line: what`, then how many there are of each rule. The status
//! is 1 if something was found that is no note. `--notes` prints the notes one by one, `--strict`
//! refuses long lines. What a machine can mend: `--fix` takes unused imports out, breaks long
//! comments and imports and writes how many lines are to be believed, `--prune` takes out what
//! nobody cites, `--break` breaks long lines of antt (run `rt fmt` behind it).

mod believed;
mod breaking;
mod cited;
mod columns;
mod decls;
mod edits;
mod fix;
mod imports;
mod layers;
mod lex;
mod named;
mod prune;
mod rattle;
mod report;
mod storeys;
mod tree;
mod uses;

use report::{Finding, Rule};
use std::path::PathBuf;
use std::process::ExitCode;
use tree::{Modules, Tree};

#[derive(Default)]
struct Options {
    fix: bool,
    prune: bool,
    breaks: bool,
    notes: bool,
    strict: bool,
    root: PathBuf,
}

fn options() -> Result<Options, String> {
    let mut options = Options {
        root: PathBuf::from("."),
        ..Options::default()
    };
    for word in std::env::args().skip(1) {
        match word.as_str() {
            "--fix" => options.fix = true,
            "--prune" => options.prune = true,
            "--break" => options.breaks = true,
            "--notes" => options.notes = true,
            "--strict" => options.strict = true,
            flag if flag.starts_with('-') => return Err(format!("no such option: {flag}")),
            root => options.root = PathBuf::from(root),
        }
    }
    Ok(options)
}

fn findings(tree: &Tree) -> Vec<Finding> {
    let files = tree.files();
    let modules = Modules::new(&files);
    let mut found = imports::findings(&files, &tree.edits);
    found.extend(cited::findings(tree, &modules));
    found.extend(storeys::findings(tree, &files));
    found.extend(layers::findings(tree, &modules));
    found.extend(edits::inapplicable(&tree.edits, &tree.sources));
    found.extend(layers::open(tree, &modules));
    found.extend(believed::findings(tree, &files));
    found.extend(named::findings(tree, &files));
    found.extend(columns::findings(&tree.sources));
    found.sort();
    found
}

/// Mends until there is nothing left to mend.
fn mend(options: &Options) -> std::io::Result<()> {
    let root = &options.root;
    let mut changed = 1;
    while changed > 0 {
        changed = fix::fix(root, &Tree::load(root)?)?;
        changed += believed::fix(root, &Tree::load(root)?)?;
        if options.prune {
            changed += prune::prune(root, &Tree::load(root)?)?;
        }
        if options.breaks {
            changed += breaking::break_lines(root, &Tree::load(root)?)?;
        }
    }
    Ok(())
}

fn run(options: &Options) -> std::io::Result<bool> {
    if options.fix || options.prune || options.breaks {
        mend(options)?;
    }
    let found = findings(&Tree::load(&options.root)?);
    let refuses = |rule: Rule| !rule.is_note() || (options.strict && rule == Rule::Columns);
    for finding in found
        .iter()
        .filter(|finding| refuses(finding.rule) || options.notes)
    {
        println!("{finding}");
    }
    for rule in Rule::ALL {
        let count = found.iter().filter(|finding| finding.rule == rule).count();
        println!(
            "lint: {count} {}{}",
            rule.title(),
            if refuses(rule) { "" } else { " (noted)" }
        );
    }
    Ok(!found.iter().any(|finding| refuses(finding.rule)))
}

fn main() -> ExitCode {
    let outcome = options().and_then(|options| run(&options).map_err(|error| error.to_string()));
    match outcome {
        Ok(true) => ExitCode::SUCCESS,
        Ok(false) => ExitCode::from(1),
        Err(error) => {
            eprintln!("lint: {error}");
            ExitCode::from(2)
        }
    }
}
