//! A routine with its variables, and names for them.

use crate::files;
use crate::near::nearest;
use crate::source::Source;
use crate::status::Failure;
use ruihmento::Answer;
use std::ops::Range;
use std::path::Path;

/// The most bytes of a text that can be accepted.
pub const LONGEST_TEXT: usize = 4096;

/// The kinds of variables.
#[derive(Clone, Copy, Debug, PartialEq, Eq)]
pub enum Kind {
    /// 4 bytes a lane.
    Int,
    /// 1 byte a lane.
    Bool,
    /// 4 bytes a lane.
    Float,
}

impl Kind {
    /// The size of one lane in bytes.
    pub fn size(self) -> usize {
        match self {
            Kind::Int | Kind::Float => 4,
            Kind::Bool => 1,
        }
    }
}

impl std::fmt::Display for Kind {
    fn fmt(&self, f: &mut std::fmt::Formatter<'_>) -> std::fmt::Result {
        f.write_str(match self {
            Kind::Int => "int",
            Kind::Bool => "bool",
            Kind::Float => "float",
        })
    }
}

/// One declaration of an accepted text.
#[derive(Clone, Debug, PartialEq, Eq)]
pub struct Variable {
    /// Its name; where two declarations share it, with line and column: `s@3:14`.
    pub name: String,
    /// Its kind.
    pub kind: Kind,
    /// Its number of lanes.
    pub length: usize,
    /// Where its first byte lies in the memory.
    pub address: usize,
    /// Where its name stands in the text.
    pub place: usize,
}

impl Variable {
    /// Where its bytes lie in the memory.
    pub fn range(&self) -> Range<usize> {
        self.address..self.address + self.length * self.kind.size()
    }

    /// Where the bytes of one lane lie in the memory.
    pub fn lane(&self, lane: usize) -> Range<usize> {
        let start = self.address + lane * self.kind.size();
        start..start + self.kind.size()
    }

    /// What it is, in words.
    pub fn described(&self) -> String {
        described(self.kind, self.length)
    }
}

/// A kind and a length, in words.
pub fn described(kind: Kind, length: usize) -> String {
    let article = match kind {
        Kind::Int => "an",
        Kind::Bool | Kind::Float => "a",
    };
    match length {
        1 => format!("{article} {kind} of one lane"),
        _ => format!("{article} {kind} of {length} lanes"),
    }
}

/// A text, what the judge says of it, and its variables.
#[derive(Debug)]
pub struct Routine {
    /// The text.
    pub source: Source,
    /// The judge's answer.
    pub answer: Answer,
    /// The variables of an accepted text, one for each declaration, in text order.
    pub variables: Vec<Variable>,
}

impl Routine {
    /// The routine in this file, of which no more is read than can be accepted.
    pub fn read(path: &Path) -> Result<Routine, Failure> {
        let text = files::read(path, LONGEST_TEXT + 1)?;
        Ok(Routine::new(Source::new(path, text)))
    }

    /// The routine of this text.
    pub fn new(source: Source) -> Routine {
        let answer = ruihmento::judge(&source.text);
        let variables = listed(&source);
        Routine {
            source,
            answer,
            variables,
        }
    }

    /// How many bytes of memory it needs.
    pub fn need(&self) -> usize {
        self.answer.need
    }

    /// The variable of this name, or why there is none.
    pub fn find(&self, name: &str) -> Result<&Variable, String> {
        if let Some(found) = self.variables.iter().find(|found| found.name == name) {
            return Ok(found);
        }
        let several = self.variables.iter().map(|variable| &variable.name[..]);
        let same: Vec<&str> = several
            .clone()
            .filter(|known| known.split('@').next() == Some(name))
            .collect();
        if !same.is_empty() {
            let same = same.join(" or ");
            return Err(format!("`{name}` is declared more than once: write {same}"));
        }
        match nearest(name, several) {
            Some(near) => Err(format!("there is no variable `{name}`: is `{near}` meant?")),
            None => Err(format!("there is no variable `{name}`")),
        }
    }
}

/// The variables of a text; none of a refused one.
fn listed(source: &Source) -> Vec<Variable> {
    let listed = match ruihmento::variables(&source.text) {
        Ok(listed) => listed.list,
        Err(_) => return Vec::new(),
    };
    let shared = |name: &str| listed.iter().filter(|other| other.name == name).count() > 1;
    let variables = listed.iter().map(|variable| {
        Some(Variable {
            name: match shared(variable.name) {
                true => format!("{}@{}", variable.name, source.position(variable.place)),
                false => variable.name.to_string(),
            },
            kind: kind(variable.kind)?,
            length: variable.length,
            address: variable.address,
            place: variable.place,
        })
    });
    variables
        .collect::<Option<Vec<Variable>>>()
        .unwrap_or_default()
}

/// The kind of a variable, if it is one of those that are known here.
fn kind(kind: ruihmento::Kind) -> Option<Kind> {
    match kind {
        ruihmento::Kind::Int => Some(Kind::Int),
        ruihmento::Kind::Bool => Some(Kind::Bool),
        ruihmento::Kind::Float => Some(Kind::Float),
        _ => None,
    }
}
