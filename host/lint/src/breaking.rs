//! Breaks long lines of antt. A line that begins deeper than the one above goes on with it, so a line may be broken
//! between any two words; the place is chosen for the reader: outside as many brackets as can be, before an operator or
//! an argument in brackets. A line with a text that a must-fail edit replaces stays as it is.

use crate::edits::Edit;
use crate::fix::write_if_new;
use crate::lex::{antt, Token};
use crate::tree::{Kind, Source, Tree};
use crate::uses::COLUMNS;
use std::io;
use std::path::Path;

/// No line is broken before this column.
const LEAST: usize = 60;

/// The number of files changed.
pub fn break_lines(root: &Path, tree: &Tree) -> io::Result<usize> {
    let mut changed = 0;
    for source in tree
        .sources
        .iter()
        .filter(|source| source.kind == Kind::Antt)
    {
        let broken = broken(source, &tree.edits);
        changed += write_if_new(&root.join(&source.path), &source.text, &broken)?;
    }
    Ok(changed)
}

fn broken(source: &Source, edits: &[Edit]) -> String {
    let pairs = edits.iter().flat_map(|edit| &edit.pairs);
    let kept: Vec<&str> = pairs
        .filter(|pair| pair.file == source.path)
        .map(|pair| pair.old.as_str())
        .collect();
    let mut text = String::new();
    for line in source.text.lines() {
        let indent = line.len() - line.trim_start().len();
        let mut rest = line.to_string();
        while let Some(at) = place_to_break(&rest, &kept) {
            text.push_str(rest[..at].trim_end());
            text.push('\n');
            rest = format!("{}{}", " ".repeat(indent + 4), &rest[at..]);
        }
        text.push_str(&rest);
        text.push('\n');
    }
    text
}

/// Where the second line is to begin; nothing if the line is short, an import or a comment, or cannot be broken.
fn place_to_break(line: &str, kept: &[&str]) -> Option<usize> {
    let tokens = antt(line);
    let is_import = tokens.iter().take(3).any(|t| t.text == "use");
    let end = tokens.last()?.end();
    if line.chars().count() <= COLUMNS || is_import || line[end..].contains(['-', '"']) {
        return None;
    }
    if kept.iter().any(|old| line.contains(old)) {
        return None;
    }
    let places = places(&tokens);
    let fits = places
        .iter()
        .filter(|(_, _, token)| token.column <= COLUMNS);
    let best = fits.rev().min_by_key(|(depth, rank, _)| (*depth, *rank));
    let best = best.or(places.iter().find(|(_, _, token)| token.column > COLUMNS));
    best.map(|(_, _, token)| token.start)
}

/// Every place where a line may begin, not too far left: in how many brackets it is, and how it reads.
fn places<'t, 'a>(tokens: &'t [Token<'a>]) -> Vec<(usize, usize, &'t Token<'a>)> {
    let mut found = Vec::new();
    let (mut depth, mut binding) = (0usize, false);
    for (at, token) in tokens.iter().enumerate() {
        if at > 0 && token.column >= LEAST && !binding && may_begin(tokens, at) {
            found.push((depth, roughness(tokens, at), token));
        }
        match token.text {
            "(" | "{" => depth += 1,
            ")" | "}" => depth = depth.saturating_sub(1),
            "λ" => binding = true,
            "." => binding = false,
            _ => {}
        }
    }
    found
}

/// A line may begin with a word or an open bracket that a space parts from what is before it.
fn may_begin(tokens: &[Token], at: usize) -> bool {
    let (token, before) = (tokens[at], tokens[at - 1]);
    let opens = token.is_word() || matches!(token.text, "(" | "{");
    opens
        && before.end() < token.start
        && !matches!(token.text, "=" | ":" | "in")
        && !matches!(before.text, "(" | "{" | "let")
}

/// How well a line reads that begins here: 0 at an operator or a new part, 1 at an argument in brackets, 2 elsewhere.
fn roughness(tokens: &[Token], at: usize) -> usize {
    let (token, before) = (tokens[at].text, tokens[at - 1].text);
    let joins = |text: &str| {
        let signs = ["→", "∙", "≡", "×", "⊎", "∷", "++", "≤", "<", "&&"];
        signs.contains(&text)
    };
    match () {
        _ if joins(token) || ["=", "in", ",", ";"].contains(&before) => 0,
        _ if token == "(" && !joins(before) => 1,
        _ => 2,
    }
}

#[cfg(test)]
mod tests {
    use super::*;

    fn text(line: &str, edits: &[Edit]) -> String {
        broken(&Source::new("crates/a/specs/A.antt", line), edits)
    }

    #[test]
    fn before_the_last_argument_that_fits() {
        let line = format!(
            "  f = g ({}) ({}) ({})\n",
            "a ".repeat(30),
            "b ".repeat(30),
            "c ".repeat(30)
        );
        let broken = text(&line, &[]);
        assert!(broken.lines().all(|line| line.chars().count() <= COLUMNS));
        assert!(broken.lines().nth(1).unwrap().starts_with("      (c c"));
        assert_eq!(
            broken.split_whitespace().collect::<Vec<_>>(),
            line.split_whitespace().collect::<Vec<_>>()
        );
        assert_eq!(text(&broken, &[]), broken);
    }

    #[test]
    fn not_in_what_an_edit_replaces() {
        let line = format!("f = {}\n", "word ".repeat(40).trim_end());
        let edit = Edit::new(
            "crates/a/must-fail/e.edit",
            &format!("file: specs/A.antt\nold: {line}new: f\n"),
        );
        assert_eq!(text(&line, &[edit]), line);
        assert_eq!(text(&line, &[]).lines().count(), 2);
    }

    #[test]
    fn not_between_a_binder_and_its_dot() {
        let binders = "y ".repeat(70);
        let line = format!("f = g {} (λ {}. x)\n", "a ".repeat(20), binders.trim_end());
        let broken = text(&line, &[]);
        assert!(broken.ends_with(" y.\n    x)\n") && broken.lines().count() == 2);
    }

    #[test]
    fn a_line_far_to_the_right() {
        let line = format!("{}f = {}\n", " ".repeat(70), "word ".repeat(40).trim_end());
        let broken = text(&line, &[]);
        assert!(broken.lines().all(|line| line.chars().count() <= COLUMNS));
        assert_eq!(broken.matches("word").count(), 40);
    }

    #[test]
    fn comments_stay() {
        let line = format!("f = 1 -- {}\n", "word ".repeat(40).trim_end());
        assert_eq!(text(&line, &[]), line);
    }
}
