//! Tokens of antt: a word is any run of characters but spaces and the few that
//! stand alone. Comments and quoted texts are skipped.

const ALONE: &str = "(){}.;,@";

#[derive(Clone, Copy, Debug, PartialEq)]
pub struct Token<'a> {
    pub text: &'a str,
    /// Where the token stands in the text, in bytes.
    pub start: usize,
    /// Counted from 1.
    pub line: usize,
    /// Characters before it on its line.
    pub column: usize,
    /// The first token of its line.
    pub leads: bool,
    /// Directly behind a dot: a field, or the rest of a path.
    pub after_dot: bool,
}

impl Token<'_> {
    pub fn end(&self) -> usize {
        self.start + self.text.len()
    }

    pub fn is_word(&self) -> bool {
        !self.text.starts_with(|c| ALONE.contains(c))
    }
}

pub fn antt(text: &str) -> Vec<Token<'_>> {
    let mut tokens: Vec<Token> = Vec::new();
    let mut at = 0;
    let (mut line, mut line_start) = (1, 0);
    while let Some(c) = text[at..].chars().next() {
        let length = token_length(&text[at..]);
        if length == 0 {
            let skipped = &text[at..at + skip_length(&text[at..], c)];
            if let Some(last) = skipped.rfind('\n') {
                line += skipped.matches('\n').count();
                line_start = at + last + 1;
            }
            at += skipped.len();
            continue;
        }
        let before = tokens.last();
        tokens.push(Token {
            text: &text[at..at + length],
            start: at,
            line,
            column: text[line_start..at].chars().count(),
            leads: before.is_none_or(|t| t.line < line),
            after_dot: before.is_some_and(|t| t.text == "." && t.end() == at),
        });
        at += length;
    }
    tokens
}

/// The bytes of the token that the text begins with; 0 for a space, a comment or a quoted text.
fn token_length(text: &str) -> usize {
    let first = text.chars().next().unwrap_or(' ');
    if first.is_whitespace() || first == '"' || text.starts_with("--") || text.starts_with("{-") {
        return 0;
    }
    if ALONE.contains(first) {
        return 1;
    }
    if first == '«' {
        return text.find('»').map_or(text.len(), |at| at + '»'.len_utf8());
    }
    let ends = |c: char| c.is_whitespace() || c == '"' || c == '«' || c == '»' || ALONE.contains(c);
    text.find(ends).unwrap_or(text.len()).max(first.len_utf8())
}

/// The bytes of the space, comment or quoted text that the text begins with.
fn skip_length(text: &str, first: char) -> usize {
    if text.starts_with("--") {
        return text.find('\n').unwrap_or(text.len());
    }
    if text.starts_with("{-") {
        return text.find("-}").map_or(text.len(), |at| at + 2);
    }
    if first == '"' {
        return quoted_length(text);
    }
    first.len_utf8()
}

fn quoted_length(text: &str) -> usize {
    let mut escaped = false;
    for (at, c) in text.char_indices().skip(1) {
        if c == '"' && !escaped {
            return at + 1;
        }
        escaped = c == '\\' && !escaped;
    }
    text.len()
}

/// What stands in an operator's name where an argument goes: `◌∷◌`.
const HOLE: char = '◌';

pub fn is_operator(name: &str) -> bool {
    name.contains(HOLE)
}

/// The places that an operator's name leaves: `if◌then◌` has the parts `if` and `then`. A plain name is its own part.
pub fn parts(name: &str) -> Vec<&str> {
    if name.starts_with('«') || !is_operator(name) {
        return vec![name];
    }
    name.split(HOLE).filter(|part| !part.is_empty()).collect()
}

#[cfg(test)]
mod tests {
    use super::*;

    fn texts(text: &str) -> Vec<&str> {
        antt(text).iter().map(|t| t.text).collect()
    }

    #[test]
    fn words_and_marks() {
        assert_eq!(
            texts("f (x ∷ l) = r .field -- no\n  g"),
            ["f", "(", "x", "∷", "l", ")", "=", "r", ".", "field", "g"]
        );
        assert_eq!(
            texts("{- a\nb -} c \"d -- e\" «max_len»"),
            ["c", "«max_len»"]
        );
    }

    #[test]
    fn places() {
        let tokens = antt("a\n  λ b. c .d");
        let at = |text: &str| *tokens.iter().find(|t| t.text == text).unwrap();
        assert_eq!((at("λ").line, at("λ").column, at("λ").leads), (2, 2, true));
        assert!(at("d").after_dot && !at("c").after_dot);
    }

    #[test]
    fn operators() {
        assert_eq!(parts("if◌then◌"), ["if", "then"]);
        assert_eq!(parts("«a◌b»"), ["«a◌b»"]);
        assert_eq!(parts("◌∷◌"), ["∷"]);
        assert_eq!(parts("be_at"), ["be_at"]);
    }
}
