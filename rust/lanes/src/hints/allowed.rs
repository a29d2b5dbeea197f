//! What may stand at a place, from the judge.

use crate::syntax::expression;
use crate::syntax::tokens::{RESERVED, SIGNS};

/// A name, a number and a constant of a float, for those that are asked about.
const NAME: &str = "x";
const NUMBER: &str = "1";
const FLOAT: &str = "1.0";

/// With what a statement begins.
const STATEMENT: [&str; 9] = [
    NAME, "int", "bool", "float", "if", "while", "scalar", ";", "{",
];

/// With what a value begins.
const VALUE: [&str; 10] = [
    NAME,
    NUMBER,
    FLOAT,
    "true",
    "false",
    "current_mask",
    "(",
    "-",
    "~",
    "!",
];

/// The tokens that may stand at a place.
#[derive(Debug)]
pub struct Allowed {
    tokens: Vec<&'static str>,
}

/// The tokens that may stand behind this beginning of a text: those at which the judge does not
/// refuse it as not allowed. None are known where the text would become too long.
pub fn at(beginning: &[u8]) -> Allowed {
    let all = [NAME, NUMBER, FLOAT].into_iter();
    let all = all.chain(RESERVED).chain(SIGNS);
    let may_stand = |token: &&str| {
        // The line break ends a comment.
        let text = [beginning, b"\n", token.as_bytes()].concat();
        let answer = ruihmento::judge(&text);
        let refused = answer.code == 3 && answer.place == beginning.len() + 1;
        !refused && answer.code != 1
    };
    Allowed {
        tokens: all.filter(may_stand).collect(),
    }
}

impl Allowed {
    /// Whether this word or sign may stand there.
    pub fn has(&self, token: &str) -> bool {
        self.tokens.contains(&token)
    }

    /// Whether a name may stand there.
    pub fn has_name(&self) -> bool {
        self.has(NAME)
    }

    /// Whether this alone may stand there.
    pub fn is(&self, token: &str) -> bool {
        self.tokens == [token]
    }

    /// What may stand there, in words.
    pub fn sentence(&self) -> Option<String> {
        let mut rest = self.tokens.clone();
        let mut words: Vec<String> = Vec::new();
        let operators: Vec<&str> = SIGNS
            .into_iter()
            .filter(|sign| expression::level(sign).is_some())
            .collect();
        let groups: [(&str, &[&str]); 3] = [
            ("a statement", &STATEMENT),
            ("a value", &VALUE),
            ("an operator", &operators),
        ];
        for (name, group) in groups {
            if group.iter().all(|token| rest.contains(token)) {
                rest.retain(|token| !group.contains(token));
                words.push(name.into());
            }
        }
        words.extend(rest.iter().map(|token| match *token {
            NAME => "a name".into(),
            NUMBER => "a number".into(),
            FLOAT => "a float".into(),
            token => format!("`{token}`"),
        }));
        let last = words.pop()?;
        Some(match words.is_empty() {
            true => format!("Here may stand {last}."),
            false => format!("Here may stand {} or {last}.", words.join(", ")),
        })
    }
}

#[cfg(test)]
mod tests {
    use super::*;

    #[test]
    fn the_judge_says_what_may_stand() {
        for (beginning, expected) in [
            ("", "Here may stand a statement."),
            ("x", "Here may stand `=`."),
            ("x =", "Here may stand a value."),
            ("x = 1", "Here may stand an operator or `;`."),
            ("x = (1", "Here may stand an operator or `)`."),
            ("int", "Here may stand a name or `block`."),
            ("int block", "Here may stand `[`."),
            ("int block[", "Here may stand a number."),
            ("{", "Here may stand a statement or `}`."),
            ("if (x) ; // and", "Here may stand `else`."),
        ] {
            assert_eq!(
                at(beginning.as_bytes()).sentence().as_deref(),
                Some(expected)
            );
        }
        assert_eq!(at(&[b' '; 4096]).sentence(), None);
    }
}
