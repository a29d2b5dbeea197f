//! Statements, read from tokens.

use super::expression::{level, Expression, Item, Part};
use super::tokens::{Sort, Token};
use super::Refused;
use crate::routine::Kind;
use std::ops::Range;

/// The most levels of nesting.
const DEEPEST: u32 = 32;

/// A statement.
#[derive(Clone, Debug)]
pub struct Statement<'t> {
    /// Where it stands; of an `if` or `while` the part up to its condition.
    pub head: Range<usize>,
    /// Where it ends, with all that it holds.
    pub end: usize,
    /// What it is.
    pub shape: Shape<'t>,
}

/// The sorts of statements.
#[derive(Clone, Debug)]
pub enum Shape<'t> {
    /// `;`
    Empty,
    /// `{ .. }`
    Braces(Vec<Statement<'t>>),
    /// A kind, perhaps a number of lanes, a name, perhaps a value.
    Declaration(Kind, Option<Token<'t>>, Token<'t>, Option<Value<'t>>),
    /// A name and its new value.
    Assignment(Token<'t>, Value<'t>),
    /// A condition and two branches.
    If(Expression<'t>, Box<Statement<'t>>, Box<Statement<'t>>),
    /// A condition and a body.
    While(Expression<'t>, Box<Statement<'t>>),
    /// `scalar` and a statement.
    Scalar(Box<Statement<'t>>),
}

/// A value behind its `=`.
#[derive(Clone, Debug)]
pub struct Value<'t> {
    /// The `=`.
    pub assign: Token<'t>,
    /// The value.
    pub expression: Expression<'t>,
}

/// The statements of these tokens, of which the last is the text's end.
pub fn statements<'t>(tokens: &[Token<'t>]) -> Result<Vec<Statement<'t>>, Refused> {
    let mut reader = Reader {
        tokens,
        next: 0,
        nesting: 0,
        items: Vec::new(),
    };
    reader.sequence("")
}

/// Reading stops at the first refusal.
type Read<T> = Result<T, Refused>;

/// The tokens that are not read yet, and how many levels are open.
struct Reader<'r, 't> {
    tokens: &'r [Token<'t>],
    next: usize,
    nesting: u32,
    items: Vec<Item<'t>>,
}

impl<'t> Reader<'_, 't> {
    /// The first token that is not read yet.
    fn token(&self) -> Token<'t> {
        self.tokens[self.next]
    }

    /// Takes the first token.
    fn take(&mut self) -> Token<'t> {
        let token = self.token();
        self.next += 1;
        token
    }

    /// Where the last token that was read ends.
    fn end(&self) -> usize {
        self.tokens[..self.next].last().map_or(0, Token::end)
    }

    /// The first token is refused.
    fn refuse<T>(&self, code: u32) -> Read<T> {
        let place = self.token().start;
        Err(Refused { code, place })
    }

    /// Takes this word or sign.
    fn expect(&mut self, text: &str) -> Read<Token<'t>> {
        match self.token().is(text) {
            true => Ok(self.take()),
            false => self.refuse(3),
        }
    }

    /// Opens a level at the first token.
    fn open(&mut self) -> Read<()> {
        if self.nesting == DEEPEST {
            return self.refuse(4);
        }
        self.nesting += 1;
        Ok(())
    }

    /// Statements up to this sign, or to the text's end.
    fn sequence(&mut self, end: &str) -> Read<Vec<Statement<'t>>> {
        let mut statements = Vec::new();
        let at_end = |token: Token| match end {
            "" => token.sort == Sort::End,
            end => token.is(end),
        };
        while !at_end(self.token()) {
            statements.push(self.statement()?);
        }
        Ok(statements)
    }

    /// One statement.
    fn statement(&mut self) -> Read<Statement<'t>> {
        let Token { sort, start, text } = self.token();
        let (shape, head) = match (sort, text) {
            (Sort::Sign, ";") => {
                self.take();
                (Shape::Empty, self.end())
            }
            (Sort::Sign, "{") => self.braces()?,
            (Sort::Word, "int") => self.declaration(Kind::Int)?,
            (Sort::Word, "bool") => self.declaration(Kind::Bool)?,
            (Sort::Word, "float") => self.declaration(Kind::Float)?,
            (Sort::Name, _) => self.assignment()?,
            (Sort::Word, "if") => self.choice()?,
            (Sort::Word, "while") => self.repetition()?,
            (Sort::Word, "scalar") => {
                let head = self.take().end();
                (Shape::Scalar(self.branch()?), head)
            }
            _ => return self.refuse(3),
        };
        Ok(Statement {
            head: start..head,
            end: self.end(),
            shape,
        })
    }

    /// `{ .. }`, and where its head ends.
    fn braces(&mut self) -> Read<(Shape<'t>, usize)> {
        self.open()?;
        let head = self.take().end();
        let statements = self.sequence("}")?;
        self.expect("}")?;
        self.nesting -= 1;
        Ok((Shape::Braces(statements), head))
    }

    /// A declaration, and where it ends.
    fn declaration(&mut self, kind: Kind) -> Read<(Shape<'t>, usize)> {
        self.take();
        let mut lanes = None;
        if self.token().is("block") {
            self.take();
            self.expect("[")?;
            lanes = Some(self.sort(Sort::Number)?);
            self.expect("]")?;
        }
        let name = self.sort(Sort::Name)?;
        let value = match self.token().is("=") {
            true => Some(self.value()?),
            false => None,
        };
        self.expect(";")?;
        Ok((Shape::Declaration(kind, lanes, name, value), self.end()))
    }

    /// Takes a token of this sort.
    fn sort(&mut self, sort: Sort) -> Read<Token<'t>> {
        match self.token().sort == sort {
            true => Ok(self.take()),
            false => self.refuse(3),
        }
    }

    /// An assignment, and where it ends.
    fn assignment(&mut self) -> Read<(Shape<'t>, usize)> {
        let name = self.take();
        let value = self.value()?;
        self.expect(";")?;
        Ok((Shape::Assignment(name, value), self.end()))
    }

    /// A value behind its `=`.
    fn value(&mut self) -> Read<Value<'t>> {
        let assign = self.expect("=")?;
        let span = self.operators(0)?;
        let expression = self.expression(span);
        Ok(Value { assign, expression })
    }

    /// What was read of an expression is whole.
    fn expression(&mut self, span: Range<usize>) -> Expression<'t> {
        let items = std::mem::take(&mut self.items);
        Expression { items, span }
    }

    /// An `if`, and where its head ends.
    fn choice(&mut self) -> Read<(Shape<'t>, usize)> {
        self.take();
        let condition = self.condition()?;
        let head = self.end();
        let first = self.branch()?;
        self.expect("else")?;
        let second = self.branch()?;
        Ok((Shape::If(condition, first, second), head))
    }

    /// A `while`, and where its head ends.
    fn repetition(&mut self) -> Read<(Shape<'t>, usize)> {
        self.take();
        let condition = self.condition()?;
        let head = self.end();
        Ok((Shape::While(condition, self.branch()?), head))
    }

    /// A condition in its parentheses.
    fn condition(&mut self) -> Read<Expression<'t>> {
        if !self.token().is("(") {
            return self.refuse(3);
        }
        let Range { start, end } = self.parenthesised()?;
        Ok(self.expression(start + 1..end - 1))
    }

    /// A branch or a body, which opens a level at its first token.
    fn branch(&mut self) -> Read<Box<Statement<'t>>> {
        if !starts_statement(self.token()) {
            return self.refuse(3);
        }
        self.open()?;
        let statement = self.statement()?;
        self.nesting -= 1;
        Ok(Box::new(statement))
    }

    /// Operands and operators, from this level to the tightest; where they stand.
    fn operators(&mut self, loosest: u32) -> Read<Range<usize>> {
        let mut span = self.operand()?;
        loop {
            let token = self.token();
            let level = match level(token.text).filter(|level| *level >= loosest) {
                Some(level) => level,
                None => return Ok(span),
            };
            self.take();
            span.end = self.operators(level + 1)?.end;
            self.push(Part::Binary, token, span.clone());
        }
    }

    /// One more part of the expression.
    fn push(&mut self, part: Part, token: Token<'t>, span: Range<usize>) {
        self.items.push(Item { part, token, span });
    }

    /// One operand; where it stands.
    fn operand(&mut self) -> Read<Range<usize>> {
        let token = self.token();
        let part = match (token.sort, token.text) {
            (Sort::Sign, "-" | "~" | "!") => {
                self.open()?;
                self.take();
                let span = token.start..self.operand()?.end;
                self.nesting -= 1;
                self.push(Part::Unary, token, span.clone());
                return Ok(span);
            }
            (Sort::Sign, "(") => return self.parenthesised(),
            (Sort::Number, _) => Part::Number,
            (Sort::Decimal, _) => Part::Decimal,
            (Sort::Name, _) => Part::Name,
            (Sort::Word, "true" | "false") => Part::Truth,
            (Sort::Word, "current_mask") => Part::CurrentMask,
            _ => return self.refuse(3),
        };
        self.take();
        self.push(part, token, token.span());
        Ok(token.span())
    }

    /// `( .. )`; where it stands.
    fn parenthesised(&mut self) -> Read<Range<usize>> {
        self.open()?;
        let start = self.take().start;
        self.operators(0)?;
        let end = self.expect(")")?.end();
        self.nesting -= 1;
        Ok(start..end)
    }
}

/// Whether a statement can begin with this token.
fn starts_statement(token: Token) -> bool {
    match token.sort {
        Sort::Name => true,
        Sort::Word => ["int", "bool", "float", "if", "while", "scalar"].contains(&token.text),
        Sort::Sign => [";", "{"].contains(&token.text),
        _ => false,
    }
}
