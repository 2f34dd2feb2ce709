//! Declarations of antt, by the layout: what begins at the column of its block begins an item, and
//! clauses, `unfolding` lines and closing brackets go with the declaration above them.

use crate::lex::Token;
use std::ops::Range;

#[derive(Clone, Debug, PartialEq)]
pub enum Kind {
    Definition,
    /// A data type or a record.
    Type,
    Ruleset,
    /// An item that gives nothing a name, as `open`.
    Other,
}

#[derive(Debug)]
pub struct Declaration<'a> {
    pub kind: Kind,
    /// Its own name first; a data type's constructors go with it.
    pub names: Vec<&'a str>,
    pub marks: Vec<&'a str>,
    pub line: usize,
    /// Signature, `unfolding` line and clauses, as tokens of the file's body.
    pub tokens: Range<usize>,
    /// The parameters of the sections around it.
    pub sections: Vec<Range<usize>>,
}

impl<'a> Declaration<'a> {
    pub fn is_marked(&self, mark: &str) -> bool {
        self.marks.contains(&mark)
    }
}

pub fn declarations<'a>(body: &[Token<'a>]) -> Vec<Declaration<'a>> {
    let mut reader = Reader {
        body,
        found: Vec::new(),
    };
    reader.block(0..body.len(), &[]);
    reader.found
}

struct Reader<'t, 'a> {
    body: &'t [Token<'a>],
    found: Vec<Declaration<'a>>,
}

impl<'a> Reader<'_, 'a> {
    fn block(&mut self, range: Range<usize>, sections: &[Range<usize>]) {
        let Some(first) = self.body[range.clone()].first() else {
            return;
        };
        let column = first.column;
        let begins = |t: &Token| t.leads && t.column <= column;
        let mut at = range.start;
        while at < range.end {
            let length = self.body[at + 1..range.end].iter().position(begins);
            let end = length.map_or(range.end, |length| at + 1 + length);
            self.item(at..end, sections);
            at = end;
        }
    }

    fn item(&mut self, range: Range<usize>, sections: &[Range<usize>]) {
        let marks: Vec<&str> = self.body[range.clone()]
            .iter()
            .map(|t| t.text)
            .take_while(|t| is_mark(t))
            .collect();
        let at = range.start + marks.len();
        let Some(word) = self.body[..range.end].get(at).map(|t| t.text) else {
            return;
        };
        match word {
            "module" => self.section(range, sections),
            "mutual" => self.block(at + 1..range.end, sections),
            "mod" | "infix" | "infixl" | "infixr" => {}
            "open" => self.add(Kind::Other, Vec::new(), marks, range, sections),
            "data" | "record" if self.body.get(at + 1).is_some_and(|t| t.is_word()) => {
                let names = self.type_names(at, range.clone());
                self.add(Kind::Type, names, marks, range, sections);
            }
            "ruleset" => self.add(
                Kind::Ruleset,
                vec![self.body[at + 1].text],
                marks,
                range,
                sections,
            ),
            _ if self.is_signature(at, range.end) => {
                self.add(Kind::Definition, vec![word], marks, range, sections)
            }
            _ => {
                if let Some(last) = self.found.last_mut() {
                    last.tokens.end = range.end;
                }
            }
        }
    }

    /// `module _ (parameters) where`, and what stands below it.
    fn section(&mut self, range: Range<usize>, sections: &[Range<usize>]) {
        let opens = self.body[range.clone()]
            .iter()
            .position(|t| t.text == "where");
        if let Some(inner) = opens.map(|opens| range.start + opens + 1) {
            let mut around = sections.to_vec();
            around.push(range.start..inner);
            self.block(inner..range.end, &around);
        }
    }

    fn add(
        &mut self,
        kind: Kind,
        names: Vec<&'a str>,
        marks: Vec<&'a str>,
        tokens: Range<usize>,
        sections: &[Range<usize>],
    ) {
        let line = self.body[tokens.start].line;
        self.found.push(Declaration {
            kind,
            names,
            marks,
            line,
            tokens,
            sections: sections.to_vec(),
        });
    }

    /// `name :` or `name {levels} :`.
    fn is_signature(&self, at: usize, end: usize) -> bool {
        let rest = &self.body[at..end];
        if !rest[0].is_word() {
            return false;
        }
        let behind = match rest.get(1).map(|t| t.text) {
            Some("{") => rest
                .iter()
                .position(|t| t.text == "}")
                .and_then(|shut| rest.get(shut + 1)),
            _ => rest.get(1),
        };
        behind.is_some_and(|t| t.text == ":")
    }

    fn type_names(&self, at: usize, range: Range<usize>) -> Vec<&'a str> {
        let mut names = vec![self.body[at + 1].text];
        if self.body[at].text == "data" {
            names.extend(self.constructors(range));
        }
        names
    }

    /// The names before the colon on each line of a data type's block.
    fn constructors(&self, range: Range<usize>) -> Vec<&'a str> {
        let Some(opens) = self.body[range.clone()]
            .iter()
            .position(|t| t.text == "where")
        else {
            return Vec::new();
        };
        let inner = &self.body[range.start + opens + 1..range.end];
        let Some(column) = inner.first().map(|t| t.column) else {
            return Vec::new();
        };
        let starts = inner
            .iter()
            .enumerate()
            .filter(|(_, t)| t.leads && t.column == column && t.text != "deriving")
            .map(|(at, _)| at);
        starts
            .flat_map(|at| {
                inner[at..]
                    .iter()
                    .take_while(|t| t.text != ":")
                    .map(|t| t.text)
            })
            .collect()
    }
}

fn is_mark(word: &str) -> bool {
    matches!(word, "unfoldable" | "abbrev" | "pub" | "axiom")
}

#[cfg(test)]
mod tests {
    use super::*;
    use crate::lex::antt;

    const FILE: &str = "
pub data Event : Type 0 where
  tick : Event
  receive send : ℕ → Event

infixr 66 ◌then◌
abbrev pub ◌then◌ : ℕ → ℕ → ℕ
a then b = a

module _ (n : ℕ)
    (m : ℕ) where
  unfoldable pub low {ℓ} : ℕ
  low = go n
    where
      go : ℕ → ℕ
      go x = x

  module _ (k : ℕ) where
    law : low ≡ (
      n
    )
    unfolding low
    law = (
      refl
    )

pub ruleset tests = (law)
";

    #[test]
    fn names_and_marks() {
        let body = antt(FILE);
        let found = declarations(&body);
        let names: Vec<&[&str]> = found.iter().map(|d| d.names.as_slice()).collect();
        assert_eq!(
            names,
            [
                &["Event", "tick", "receive", "send"][..],
                &["◌then◌"],
                &["low"],
                &["law"],
                &["tests"]
            ]
        );
        assert!(
            found[1].is_marked("abbrev") && found[2].is_marked("pub") && found[3].marks.is_empty()
        );
        assert_eq!((found[2].sections.len(), found[3].sections.len()), (1, 2));
    }

    #[test]
    fn clauses_go_with_their_signature() {
        let body = antt(FILE);
        let found = declarations(&body);
        let texts: Vec<&str> = body[found[3].tokens.clone()]
            .iter()
            .map(|t| t.text)
            .collect();
        assert_eq!(
            texts,
            [
                "law",
                ":",
                "low",
                "≡",
                "(",
                "n",
                ")",
                "unfolding",
                "low",
                "law",
                "=",
                "(",
                "refl",
                ")"
            ]
        );
    }
}
