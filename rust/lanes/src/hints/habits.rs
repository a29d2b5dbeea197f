//! What was probably meant by a token that is not allowed: habits from other languages.

use super::allowed::Allowed;
use crate::source::Source;
use crate::syntax::facts;
use crate::syntax::tokens::{Sort, Token};

/// Words of other languages that stand before a statement or a block.
const STATEMENTS: [&str; 9] = [
    "for", "do", "switch", "case", "return", "break", "continue", "goto", "then",
];

/// Kinds of other languages.
const KINDS: [&str; 17] = [
    "double", "char", "long", "short", "unsigned", "signed", "uint", "i32", "u32", "f32", "void",
    "auto", "let", "var", "const", "boolean", "string",
];

/// The token that is not allowed, with its neighbours.
struct Place<'a, 't> {
    source: &'a Source,
    tokens: &'a [Token<'t>],
    at: usize,
    allowed: &'a Allowed,
    token: Token<'t>,
    before: Option<Token<'t>>,
    after: Option<Token<'t>>,
}

/// What was probably meant, if it is known.
pub fn hint(source: &Source, tokens: &[Token], at: usize, allowed: &Allowed) -> Option<String> {
    let place = Place {
        source,
        tokens,
        at,
        allowed,
        token: tokens[at],
        before: at.checked_sub(1).map(|before| tokens[before]),
        after: tokens.get(at + 1).copied(),
    };
    let found = place.doubled().or_else(|| place.changed());
    let found = found.or_else(|| place.equals()).or_else(|| place.word());
    let found = found.or_else(|| place.bracket()).or_else(|| place.number());
    found.or_else(|| place.missing())
}

impl Place<'_, '_> {
    /// The token directly before, if nothing stands between.
    fn touching(&self) -> Option<&str> {
        let before = self.before.as_ref()?;
        (before.end() == self.token.start).then_some(before.text)
    }

    /// A sign written twice: `&&`.
    fn doubled(&self) -> Option<String> {
        let both = (self.touching()?, self.token.text);
        match both {
            ("&", "&") => Some("There is no `&&`: use `&`.".into()),
            ("|", "|") => Some("There is no `||`: use `|`.".into()),
            ("<", "<") | (">", ">") => {
                let (first, second) = both;
                Some(format!(
                    "There is no `{first}{second}`: there are no shifts."
                ))
            }
            ("<", ">") => Some("There is no `<>`: use `!=`.".into()),
            _ => None,
        }
    }

    /// A sign that changes a variable: `+=`, `++`.
    fn changed(&self) -> Option<String> {
        let (sign, after) = (self.token.text, self.after.as_ref()?);
        let touches = self.token.end() == after.start;
        if !["+", "-", "*", "&", "|", "^"].contains(&sign) || !touches {
            return None;
        }
        let name = self.before.filter(|before| before.sort == Sort::Name);
        let name = name
            .filter(|_| self.allowed.is("="))
            .map_or("x", |name| name.text);
        match after.text {
            "=" | "==" => Some(format!(
                "There is no `{sign}=`: write `{name} = {name} {sign} ..;`."
            )),
            again if again == sign && "+-".contains(sign) => Some(format!(
                "There is no `{sign}{sign}`: write `{name} = {name} {sign} 1;`."
            )),
            _ => None,
        }
    }

    /// `=` for `==`, or the other way round.
    fn equals(&self) -> Option<String> {
        match self.token.text {
            "=" if self.allowed.has("==") => Some("`=` stores; `==` compares.".into()),
            "==" if self.allowed.is("=") => Some("`==` compares; `=` stores.".into()),
            _ => None,
        }
    }

    /// A word of another language before the token, or a reserved word in place of a name or as a
    /// conversion.
    fn word(&self) -> Option<String> {
        let (token, before) = (self.token, self.before?);
        if token.sort == Sort::Word && self.allowed.has_name() && !self.allowed.has("int") {
            let word = token.text;
            let value = self.allowed.has("true");
            return Some(match word {
                "int" | "float" if value => facts::NO_CONVERSION.into(),
                _ => format!("`{word}` is a reserved word, and no name."),
            });
        }
        if before.sort != Sort::Name || !self.allowed.is("=") {
            return None;
        }
        let word = before.text;
        match word {
            "for" => Some("There is no `for`: use `while`.".into()),
            _ if STATEMENTS.contains(&word) => Some(format!("There is no `{word}`.")),
            _ if KINDS.contains(&word) => Some(format!(
                "There is no `{word}`: the kinds are `int`, `bool` and `float`."
            )),
            _ if token.is("(") => Some("There are no functions.".into()),
            _ => None,
        }
    }

    /// A bracket: indexing, or a block that is written otherwise.
    fn bracket(&self) -> Option<String> {
        let before = self.before.filter(|_| self.token.is("["))?;
        match before.sort {
            Sort::Name => {
                let name = before.text;
                Some(format!(
                    "There is no indexing: `{name}` stands for all its lanes."
                ))
            }
            _ if ["int", "bool", "float"].iter().any(|kind| before.is(kind)) => {
                let kind = before.text;
                Some(format!("A block is written `{kind} block[4]`."))
            }
            _ => None,
        }
    }

    /// Letters directly behind digits: `0x10`.
    fn number(&self) -> Option<String> {
        let digits = self.touching()?;
        let letters = self.token.text;
        if !matches!(self.token.sort, Sort::Name | Sort::Word) {
            return None;
        }
        let alone = match self.before?.sort {
            Sort::Number => "numbers are decimal digits alone",
            Sort::Decimal => "a float is decimal digits and `.0` alone",
            _ => return None,
        };
        Some(format!("There is no `{digits}{letters}`: {alone}."))
    }

    /// Something that is missing before the token.
    fn missing(&self) -> Option<String> {
        if self.allowed.is("else") {
            return Some("`if` needs an `else`: write `else ;`.".into());
        }
        if self.token.is("else") {
            let one = "An `else` follows the one statement of its `if`; several need braces.";
            return Some(one.into());
        }
        let at_end = self.token.sort == Sort::End;
        if at_end && self.allowed.has("}") {
            return self.not_closed("{", "}");
        }
        if self.allowed.has(")") && (at_end || self.token.is(";") || self.token.is("{")) {
            return self.not_closed("(", ")");
        }
        let starts = ["int", "bool", "float", "if", "while", "scalar", "}"];
        let starts = starts.iter().any(|word| self.token.is(word));
        let named = self.token.sort == Sort::Name;
        let statement = self.allowed.has("int");
        if self.allowed.has(";") && !statement && (starts || named || at_end) {
            return Some("Is a `;` missing before it?".into());
        }
        let spare = statement && self.token.is("}");
        spare.then(|| "This `}` closes nothing.".into())
    }

    /// The innermost of the signs that are not closed before the token.
    fn not_closed(&self, open: &str, close: &str) -> Option<String> {
        let mut opened = Vec::new();
        for token in &self.tokens[..self.at] {
            if token.is(open) {
                opened.push(token.start);
            } else if token.is(close) {
                opened.pop();
            }
        }
        let position = self.source.position(opened.pop()?);
        Some(format!("The `{open}` at {position} is not closed."))
    }
}
