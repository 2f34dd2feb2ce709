//! Rule 5: lines of at most 160 columns. A comment can always be broken; of code it is noted.

use crate::report::{Finding, Rule};
use crate::tree::Source;
use crate::uses::COLUMNS;

pub fn findings(sources: &[Source]) -> Vec<Finding> {
    let mut found = Vec::new();
    for source in sources {
        for (number, line) in source
            .text
            .lines()
            .enumerate()
            .filter(|(_, line)| is_long(line))
        {
            let message = format!("{} columns", line.chars().count());
            found.push(Finding::new(
                Rule::Columns,
                &source.path,
                number + 1,
                message,
            ));
        }
    }
    found
}

fn is_long(line: &str) -> bool {
    line.chars().count() > COLUMNS
}

/// The indentation and mark that a comment's lines begin with.
fn comment_mark(line: &str) -> Option<&str> {
    let text = line.trim_start();
    let mark = ["-- ", "// ", "/// ", "//! "]
        .into_iter()
        .find(|mark| text.starts_with(mark))?;
    Some(&line[..line.len() - text.len() + mark.len()])
}

/// The text with every long comment line broken between words. The rest of a line goes on in the next one, if that is
/// the same comment and the sentence does not end here.
pub fn wrapped(text: &str) -> String {
    let mut lines: Vec<String> = text.lines().map(str::to_string).collect();
    let mut at = 0;
    while at < lines.len() {
        if let Some((kept, rest, mark)) = broken(&lines[at]) {
            let goes_on = !rest.ends_with(['.', ':', ';'])
                && lines.get(at + 1).is_some_and(|next| {
                    comment_mark(next) == Some(&mark) && is_prose(&next[mark.len()..])
                });
            if goes_on {
                lines[at + 1] = format!("{mark}{rest} {}", &lines[at + 1][mark.len()..]);
            } else {
                lines.insert(at + 1, format!("{mark}{rest}"));
            }
            lines[at] = kept;
        }
        at += 1;
    }
    let end = if text.ends_with('\n') { "\n" } else { "" };
    lines.join("\n") + end
}

/// Words that go on, and no row of a table or a list.
fn is_prose(text: &str) -> bool {
    !text.starts_with([' ', '-', '*', '|']) && !text.starts_with(|c: char| c.is_ascii_digit())
}

fn broken(line: &str) -> Option<(String, String, String)> {
    let mark = comment_mark(line).filter(|_| is_long(line))?;
    let limit = line
        .char_indices()
        .nth(COLUMNS + 1)
        .map_or(line.len(), |(at, _)| at);
    let space = line[..limit]
        .trim_end()
        .rfind(' ')
        .filter(|space| *space > mark.len())?;
    Some((
        line[..space].trim_end().to_string(),
        line[space + 1..].trim_start().to_string(),
        mark.to_string(),
    ))
}

#[cfg(test)]
mod tests {
    use super::*;

    #[test]
    fn counts_characters() {
        let source = Source::new(
            "crates/a/specs/A.antt",
            &format!("{}\n{}\n", "→".repeat(160), "x".repeat(161)),
        );
        let found = findings(&[source]);
        assert_eq!((found.len(), found[0].line), (1, 2));
    }

    #[test]
    fn breaks_comments_between_words() {
        let text = format!(
            "  -- {}\n  -- goes on\nf : {}\n",
            "word ".repeat(35).trim_end(),
            "word ".repeat(40)
        );
        let once = wrapped(&text);
        let comments: Vec<&str> = once
            .lines()
            .take_while(|line| line.starts_with("  -- "))
            .collect();
        assert!(
            comments.len() == 2
                && comments.iter().all(|line| !is_long(line))
                && comments[1].ends_with("word goes on")
        );
        assert_eq!(once.matches("word").count(), 75);
        assert_eq!(wrapped(&once), once);
    }

    #[test]
    fn leaves_what_follows_a_sentence() {
        let text = format!("-- {}.\n-- Next\n", "word ".repeat(35).trim_end());
        let once = wrapped(&text);
        assert!(once.lines().count() == 3 && once.ends_with("\n-- Next\n"));
    }
}
