//! The must-fail edits: what they replace, and by what.

use crate::report::{Finding, Rule};
use crate::tree::Source;

pub struct Pair {
    pub line: usize,
    /// From the repository's root.
    pub file: String,
    pub old: String,
    pub new: String,
}

pub struct Edit {
    pub path: String,
    pub pairs: Vec<Pair>,
    pub text: String,
}

impl Edit {
    pub fn new(path: &str, text: &str) -> Edit {
        let folder = path.split("must-fail/").next().unwrap_or("");
        let (mut file, mut old, mut pairs) = (String::new(), String::new(), Vec::new());
        for (number, line) in text.lines().enumerate() {
            if let Some(name) = line.strip_prefix("file: ") {
                file = format!("{folder}{name}");
            } else if let Some(replaced) = line.strip_prefix("old: ") {
                old = replaced.to_string();
            } else if let Some(new) = line.strip_prefix("new:") {
                let new = new.strip_prefix(' ').unwrap_or(new).to_string();
                pairs.push(Pair {
                    line: number,
                    file: file.clone(),
                    old: old.clone(),
                    new,
                });
            }
        }
        Edit {
            path: path.to_string(),
            pairs,
            text: text.to_string(),
        }
    }
}

/// An edit applies if each text that it replaces is in its file exactly once, when its turn comes.
pub fn inapplicable(edits: &[Edit], sources: &[Source]) -> Vec<Finding> {
    let mut findings = Vec::new();
    for edit in edits {
        let mut changed: Vec<(&str, String)> = Vec::new();
        for pair in &edit.pairs {
            let at = changed
                .iter()
                .position(|(file, _)| *file == pair.file)
                .or_else(|| {
                    let source = sources.iter().find(|source| source.path == pair.file)?;
                    changed.push((&source.path, source.text.clone()));
                    Some(changed.len() - 1)
                });
            let count = at.map_or(0, |at| changed[at].1.matches(&pair.old).count());
            if count != 1 {
                let message = format!(
                    "the text to replace is {count} times in {}, not once",
                    pair.file
                );
                findings.push(Finding::new(Rule::Edits, &edit.path, pair.line, message));
            } else if let Some(at) = at {
                changed[at].1 = changed[at].1.replacen(&pair.old, &pair.new, 1);
            }
        }
    }
    findings
}

#[cfg(test)]
mod tests {
    use super::*;

    fn findings(old: &str) -> usize {
        let sources = [Source::new("crates/a/src/x.rt", "one two two three\n")];
        let edit = Edit::new(
            "crates/a/must-fail/e.edit",
            &format!("# why\nfile: src/x.rt\nold: {old}\nnew: four\n"),
        );
        inapplicable(&[edit], &sources).len()
    }

    #[test]
    fn the_old_text_stands_once() {
        assert_eq!(
            (findings("one"), findings("two"), findings("five")),
            (0, 1, 1)
        );
    }

    #[test]
    fn a_pair_sees_what_the_one_before_it_left() {
        let sources = [Source::new("crates/a/src/x.rt", "one\n")];
        let edit = Edit::new(
            "crates/a/must-fail/e.edit",
            "file: src/x.rt\nold: one\nnew: two\nold: two\nnew:\n",
        );
        assert_eq!(inapplicable(&[edit], &sources).len(), 0);
    }
}
