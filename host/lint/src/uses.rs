//! Import lines of antt, and which of the names that they bring a text uses.

use crate::lex::{is_operator, parts, Token};
use std::collections::HashSet;
use std::ops::Range;

/// A line is broken, where it can be, before it gets longer than this.
pub const COLUMNS: usize = 160;

#[derive(Debug, PartialEq)]
pub struct Item {
    /// As it is written: `name`, `name as other`, `syntax ⟦_⟧`.
    pub text: String,
    /// The name in the module that it comes from.
    pub name: String,
    /// The name that it has here.
    pub brings: String,
}

#[derive(Debug)]
pub struct Use {
    pub line: usize,
    /// From the first mark to the closing brace, in bytes.
    pub span: Range<usize>,
    /// `pub`, `unfoldable pub` or `ghost`, as written, with the space behind it.
    pub marks: String,
    pub module: String,
    /// The names in braces; without braces the module itself is brought.
    pub items: Option<Vec<Item>>,
    pub alias: Option<String>,
}

impl Use {
    pub fn is_public(&self) -> bool {
        self.marks.contains("pub")
    }

    /// The name under which the module itself is brought.
    pub fn module_name(&self) -> Option<&str> {
        match &self.items {
            Some(_) => None,
            None => self.alias.as_deref().or(self.module.rsplit('.').next()),
        }
    }

    pub fn items(&self) -> &[Item] {
        self.items.as_deref().unwrap_or(&[])
    }

    /// The import with only these items, on as many lines as the columns ask for; nothing if there are none.
    pub fn written(&self, items: &[&Item], end: &str) -> String {
        let head = format!("{}use {}.{{", self.marks, self.module);
        let room = COLUMNS.saturating_sub(head.chars().count() + 1 + end.len());
        let mut rows: Vec<String> = Vec::new();
        for item in items {
            match rows.last_mut() {
                Some(row) if row.chars().count() + 2 + item.text.chars().count() <= room => {
                    row.push_str(", ");
                    row.push_str(&item.text);
                }
                _ => rows.push(item.text.clone()),
            }
        }
        let lines: Vec<String> = rows.iter().map(|row| format!("{head}{row}}}")).collect();
        lines.join(&format!("{end}\n"))
    }
}

/// Every import of a text. (A text that opens no import with its first word on a line has none.)
pub fn uses(tokens: &[Token]) -> Vec<Use> {
    let mut found = Vec::new();
    let mut at = 0;
    while at < tokens.len() {
        if let Some((import, next)) = use_at(tokens, at) {
            found.push(import);
            at = next;
        } else {
            at += 1;
        }
    }
    found
}

fn use_at(tokens: &[Token], begin: usize) -> Option<(Use, usize)> {
    if !tokens[begin].leads {
        return None;
    }
    let is_mark = |t: &&Token| matches!(t.text, "pub" | "ghost" | "unfoldable");
    let marks = tokens[begin..].iter().take_while(is_mark);
    let marks: Vec<String> = marks.map(|t| format!("{} ", t.text)).collect();
    let path = begin + marks.len() + 1;
    if tokens.get(path - 1)?.text != "use" {
        return None;
    }
    let mut at = path + 1;
    while tokens
        .get(at)
        .is_some_and(|t| t.text == "." || t.after_dot && t.is_word())
    {
        at += 1;
    }
    let module: String = tokens.get(path..at)?.iter().map(|t| t.text).collect();
    let mut import = Use {
        line: tokens[begin].line,
        span: 0..0,
        marks: marks.concat(),
        module: module.trim_end_matches('.').to_string(),
        items: None,
        alias: None,
    };
    let end = read_names(&mut import, tokens, at)?;
    import.span = tokens[begin].start..tokens[end - 1].end();
    Some((import, end))
}

/// What follows the path: names in braces, another name for the module, or nothing.
fn read_names(import: &mut Use, tokens: &[Token], at: usize) -> Option<usize> {
    match tokens.get(at).map(|t| t.text) {
        Some("{") => {
            let shut = at + tokens[at..].iter().position(|t| t.text == "}")?;
            let items = tokens[at + 1..shut].split(|t| t.text == ",");
            import.items = Some(items.filter(|item| !item.is_empty()).map(item_of).collect());
            Some(shut + 1)
        }
        Some("as") => {
            import.alias = Some(tokens.get(at + 1)?.text.to_string());
            Some(at + 2)
        }
        _ => Some(at),
    }
}

fn item_of(tokens: &[Token]) -> Item {
    let end = tokens
        .iter()
        .position(|t| t.text == "as")
        .unwrap_or(tokens.len());
    let name = tokens[end - 1].text.to_string();
    let brings = tokens[tokens.len() - 1].text.to_string();
    let mut text = String::new();
    for token in tokens {
        let joined = token.text == "." || token.after_dot || text.is_empty();
        text.push_str(if joined { "" } else { " " });
        text.push_str(token.text);
    }
    Item { text, name, brings }
}

/// The words of a text that can name something brought: no fields, no labels.
#[derive(Default)]
pub struct Usage {
    words: HashSet<String>,
    heads: HashSet<String>,
}

impl Usage {
    pub fn of(tokens: &[Token]) -> Usage {
        let mut usage = Usage::default();
        usage.add(tokens);
        usage
    }

    pub fn add(&mut self, tokens: &[Token]) {
        for (at, token) in tokens.iter().enumerate() {
            if !token.is_word() || token.after_dot || is_label(tokens, at) {
                continue;
            }
            if tokens
                .get(at + 1)
                .is_some_and(|next| next.text == "." && next.start == token.end())
            {
                self.heads.insert(token.text.to_string());
            }
            self.words
                .extend(parts(token.text).into_iter().map(str::to_string));
            self.words.insert(token.text.to_string());
        }
    }

    /// The imports of a text may themselves begin with a name that another one brings.
    pub fn add_heads(&mut self, uses: &[Use]) {
        self.heads.extend(
            uses.iter()
                .filter_map(|import| import.module.split('.').next())
                .map(str::to_string),
        );
    }

    pub fn has_name(&self, name: &str) -> bool {
        self.words.contains(name)
            || (is_operator(name) && parts(name).iter().all(|part| self.words.contains(*part)))
    }

    pub fn has_module(&self, name: &str) -> bool {
        self.heads.contains(name)
    }

    pub fn has_item(&self, item: &Item) -> bool {
        self.has_name(&item.brings)
            || self.has_module(&item.brings)
            || item.text.starts_with("syntax ")
    }
}

/// `label = ..` in a record, `name = ..` for an implicit argument.
fn is_label(tokens: &[Token], at: usize) -> bool {
    let opens = at > 0 && matches!(tokens[at - 1].text, "{" | ";");
    opens && tokens.get(at + 1).is_some_and(|next| next.text == "=")
}

/// The tokens that stand in no import.
pub fn outside<'a>(tokens: &[Token<'a>], uses: &[Use]) -> Vec<Token<'a>> {
    let inside = |t: &Token| uses.iter().any(|import| import.span.contains(&t.start));
    tokens.iter().filter(|t| !inside(t)).copied().collect()
}

#[cfg(test)]
mod tests {
    use super::*;
    use crate::lex::antt;

    #[test]
    fn reads_every_form() {
        let text = "use A.B.{◌∷◌, c as d, syntax ⟦_⟧}\npub use A.x.C as X\nuse A.{\n  p,\n  q,\n}\n\nf : X.T\n";
        let found = uses(&antt(text));
        let names: Vec<Vec<&str>> = found
            .iter()
            .map(|u| u.items().iter().map(|i| i.brings.as_str()).collect())
            .collect();
        assert_eq!(names, [vec!["◌∷◌", "d", "⟦_⟧"], vec![], vec!["p", "q"]]);
        assert_eq!(
            (found[0].module.as_str(), found[0].items()[1].name.as_str()),
            ("A.B", "c")
        );
        assert!(
            found[1].is_public()
                && found[1].module_name() == Some("X")
                && found[1].module == "A.x.C"
        );
        assert_eq!(&text[found[2].span.clone()], "use A.{\n  p,\n  q,\n}");
    }

    #[test]
    fn usage_of_operators_fields_and_labels() {
        let usage = Usage::of(&antt(
            "f (x ∷ l) = r.take (T.drop) (record { set = if a then b })",
        ));
        assert!(usage.has_name("◌∷◌") && usage.has_name("if◌then◌") && usage.has_module("T"));
        assert!(!usage.has_name("take") && !usage.has_name("drop") && !usage.has_name("set"));
        assert!(!usage.has_name("if◌else◌") && !usage.has_module("f"));
    }

    #[test]
    fn long_imports_take_two_lines() {
        let names: Vec<String> = (0..40).map(|i| format!("name{i}")).collect();
        let text = format!("use A.{{{}}}", names.join(", "));
        let found = uses(&antt(&text));
        let items: Vec<&Item> = found[0].items().iter().collect();
        let written = found[0].written(&items, "");
        assert!(
            written.lines().count() == 3
                && written.lines().all(|line| line.chars().count() <= COLUMNS)
        );
        assert_eq!(
            uses(&antt(&written))
                .iter()
                .map(|u| u.items().len())
                .sum::<usize>(),
            40
        );
    }
}
