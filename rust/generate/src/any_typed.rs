//! Programs that keep the grammar but choose names, kinds and lengths freely, so that several
//! refusals meet in one statement and their order shows.

use crate::expression::Expression;
use crate::random::Random;
use crate::well_typed::BLOCK_LENGTHS;

/// The comparisons.
const COMPARISONS: [&str; 6] = ["==", "!=", "<", ">", "<=", ">="];

/// How deep statements may stand in one another here.
const DEEPEST: usize = 3;

/// The tokens of a program with a few declarations and statements of any typing.
pub fn any_typed(random: &mut Random) -> Vec<String> {
    let one = *random.pick(&[2, 4, 64]);
    let other = match random.below(4) {
        0 => one,
        _ => *random.pick(&BLOCK_LENGTHS),
    };
    let mut writer = Writer {
        lengths: [one, other],
        random,
        tokens: Vec::new(),
    };
    writer.heading();
    for _ in 0..writer.random.between(1, 3) {
        writer.statement(0);
    }
    writer.tokens
}

/// The tokens written so far, and the block lengths mostly chosen.
struct Writer<'r> {
    random: &'r mut Random,
    lengths: [usize; 2],
    tokens: Vec<String>,
}

impl Writer<'_> {
    /// Appends these tokens, given with spaces between them.
    fn put(&mut self, tokens: &str) {
        let tokens = tokens.split_whitespace().map(String::from);
        self.tokens.extend(tokens);
    }

    /// Appends declarations of every kind, of length 1 and longer, mostly all or half of them.
    fn heading(&mut self) {
        let [one, other] = self.lengths;
        let half = self.random.once_in(5);
        for declaration in [
            "int s ;".to_string(),
            "bool t ;".to_string(),
            format!("int block [ {one} ] a ;"),
            format!("bool block [ {one} ] m ;"),
            format!("int block [ {other} ] b ;"),
            format!("bool block [ {other} ] k ;"),
            "float f ;".to_string(),
            format!("float block [ {one} ] g ;"),
            format!("float block [ {other} ] h ;"),
        ] {
            if !self.random.once_in(if half { 2 } else { 30 }) {
                self.put(&declaration);
            }
        }
    }

    /// A name of the heading, mostly of this kind, or another name.
    fn name(&mut self, kind: &str) -> &'static str {
        let names = match self.random.below(20) {
            0 => ["x", "y", "z", "u"],
            1 => ["s", "t", "b", "k"],
            2 => ["f", "t", "g", "a"],
            _ if kind == "int" => ["s", "a", "a", "b"],
            _ if kind == "float" => ["f", "g", "g", "h"],
            _ => ["t", "m", "m", "k"],
        };
        self.random.token(&names)
    }

    /// A kind.
    fn kind(&mut self) -> &'static str {
        self.random.token(&["int", "bool", "float"])
    }

    /// Appends one statement.
    fn statement(&mut self, depth: usize) {
        let most = if depth < DEEPEST { 14 } else { 8 };
        match self.random.below(most) {
            0 => self.put(";"),
            1..=2 => self.declaration(),
            3..=4 => self.declaration_with_value(),
            5..=7 => self.assignment(),
            8 => self.braces(depth),
            9..=11 => self.choice(depth),
            12 => self.repetition(depth),
            _ => self.scalar(depth),
        }
    }

    /// Appends a type and a name, and gives the kind.
    fn declared(&mut self) -> &'static str {
        let kind = self.kind();
        self.put(kind);
        let length = match self.random.below(8) {
            0 => 1,
            1 => *self
                .random
                .pick(&[0, 3, 8, 16, 17, 31, 32, 33, 63, 64, 65, 128]),
            2..=5 => *self.random.pick(&self.lengths),
            _ => 0,
        };
        if length > 0 || self.random.once_in(20) {
            self.put(&format!("block [ {length} ]"));
        }
        let name = match self.random.below(5) {
            0 => self.name(kind),
            _ => self.random.token(&["x", "y", "z", "w"]),
        };
        self.put(name);
        kind
    }

    /// Appends a declaration.
    fn declaration(&mut self) {
        self.declared();
        self.put(";");
    }

    /// Appends a declaration with initial value.
    fn declaration_with_value(&mut self) {
        let kind = self.declared();
        self.put("=");
        self.put_expression(kind);
        self.put(";");
    }

    /// Appends an assignment.
    fn assignment(&mut self) {
        let kind = self.kind();
        let name = self.name(kind);
        self.put(name);
        self.put("=");
        self.put_expression(kind);
        self.put(";");
    }

    /// Appends a braced sequence.
    fn braces(&mut self, depth: usize) {
        self.put("{");
        for _ in 0..self.random.below(3) {
            self.statement(depth + 1);
        }
        self.put("}");
    }

    /// Appends a condition, mostly a bool of any length.
    fn condition(&mut self) {
        self.put("(");
        if self.random.once_in(2) {
            self.put_expression("bool");
        } else {
            let name = self.name("bool");
            self.put(name);
        }
        self.put(")");
    }

    /// Appends an `if`.
    fn choice(&mut self, depth: usize) {
        self.put("if");
        self.condition();
        self.statement(depth + 1);
        self.put("else");
        self.statement(depth + 1);
    }

    /// Appends a `while`.
    fn repetition(&mut self, depth: usize) {
        self.put("while");
        self.condition();
        self.statement(depth + 1);
    }

    /// Appends a `scalar` statement.
    fn scalar(&mut self, depth: usize) {
        self.put("scalar");
        self.statement(depth + 1);
    }

    /// Appends an expression, mostly of this kind.
    fn put_expression(&mut self, kind: &'static str) {
        let fuel = *self.random.pick(&[0, 1, 1, 2, 3]);
        let expression = self.expression(kind, fuel);
        expression.write(&mut self.tokens, self.random);
    }

    /// An expression, mostly of this kind.
    fn expression(&mut self, kind: &'static str, fuel: usize) -> Expression {
        let kind = match self.random.below(16) {
            0 => self.kind(),
            _ => kind,
        };
        if fuel == 0 || self.random.once_in(5) {
            return self.leaf(kind);
        }
        let (sign, operands) = match (kind, self.random.below(3)) {
            ("int", 0) => (self.random.token(&["u-", "~"]), "int"),
            ("int", _) => (self.random.token(&["+", "-", "*", "&", "|", "^"]), "int"),
            ("float", 0) if self.random.once_in(3) => {
                (self.random.token(&["~", "!", "&", "|", "^"]), "float")
            }
            ("float", 0) => ("u-", "float"),
            ("float", _) => (self.random.token(&["+", "-", "*"]), "float"),
            (_, 0) => (self.random.token(&["!", "&", "|", "^"]), "bool"),
            (_, 1) => {
                let operands = self.random.token(&["int", "float"]);
                (self.random.token(&COMPARISONS), operands)
            }
            _ => (self.random.token(&["==", "!=", "&", ">="]), "bool"),
        };
        let left = self.expression(operands, fuel - 1);
        match sign {
            "u-" => Expression::unary("-", left),
            "~" | "!" => Expression::unary(sign, left),
            _ => Expression::binary(sign, left, self.expression(operands, fuel - 1)),
        }
    }

    /// A name, a constant or current_mask, mostly of this kind.
    fn leaf(&mut self, kind: &str) -> Expression {
        match (self.random.below(5), kind) {
            (0, "int") => Expression::leaf("3"),
            (0, "float") => Expression::leaf(self.random.token(&["3.0", "0.0", "16777216.0"])),
            (0, _) => Expression::leaf(self.random.token(&["true", "current_mask"])),
            _ => Expression::leaf(self.name(kind)),
        }
    }
}
