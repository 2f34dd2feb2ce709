//! What the rules found.

use std::fmt;

#[derive(Clone, Copy, Debug, PartialEq, Eq, PartialOrd, Ord)]
pub enum Rule {
    Imports,
    Uncited,
    Storeys,
    Layers,
    Edits,
    /// Definitions of a lower crate that are open to every proof, named above, with no reason given.
    Open,
    /// Those that no crate above names, or whose crate is not held to it.
    OpenUnnamed,
    /// Numbers of the documents that are not those counted.
    Believed,
    /// Names of the pages on the proofs that no source has.
    Named,
    Columns,
}

impl Rule {
    pub const ALL: [Rule; 10] = [
        Rule::Imports,
        Rule::Uncited,
        Rule::Storeys,
        Rule::Layers,
        Rule::Edits,
        Rule::Open,
        Rule::OpenUnnamed,
        Rule::Believed,
        Rule::Named,
        Rule::Columns,
    ];

    /// A note is counted and refuses nothing, unless all is asked for.
    pub fn is_note(self) -> bool {
        matches!(self, Rule::OpenUnnamed | Rule::Columns)
    }

    pub fn title(self) -> &'static str {
        match self {
            Rule::Imports => "unused imports",
            Rule::Uncited => "declarations that nobody cites",
            Rule::Storeys => "imports from the second storey, or proofs in the first",
            Rule::Layers => "definitions of a lower crate unfolded",
            Rule::Edits => "must-fail edits that do not apply",
            Rule::Open => "`abbrev pub` that crates above see through, with no reason given",
            Rule::OpenUnnamed => "`abbrev pub` of lower crates that are no type and have no reason",
            Rule::Believed => "lines to be believed that the documents do not count so",
            Rule::Named => "names of the pages on the proofs that no source has",
            Rule::Columns => "lines over 160 columns",
        }
    }
}

#[derive(Clone, Debug, PartialEq, Eq, PartialOrd, Ord)]
pub struct Finding {
    pub rule: Rule,
    pub path: String,
    pub line: usize,
    pub message: String,
}

impl Finding {
    pub fn new(rule: Rule, path: &str, line: usize, message: String) -> Finding {
        Finding {
            rule,
            path: path.to_string(),
            line,
            message,
        }
    }
}

impl fmt::Display for Finding {
    fn fmt(&self, out: &mut fmt::Formatter) -> fmt::Result {
        write!(out, "{}:{}: {}", self.path, self.line, self.message)
    }
}
