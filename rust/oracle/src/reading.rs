//! Document 01, "The text": from tokens to a tree, with codes 3 and 4.

use crate::answer::{Code, Refusal};
use crate::tokens::{Form, Token};
use crate::tree::{
    Binary, Declaration, Expression, Item, Kind, Name, RightSide, Shape, Statement, Tree, Unary,
};

/// The text: nesting's "limit is 32".
const DEEPEST: u32 = 32;

/// The text: reads the whole program; "a program is a sequence of statements".
pub fn read(tokens: &[Token]) -> Result<Tree, Refusal> {
    let mut reader = Reader {
        tokens,
        next: 0,
        nesting: 0,
        items: Vec::with_capacity(tokens.len() / 2),
    };
    let statements = reader.sequence(Form::End)?;
    let items = reader.items;
    Ok(Tree { statements, items })
}

/// Codes: "The first refusal met ends the reading", so each call hands it up.
type Read<T> = Result<T, Refusal>;

/// The text: the tokens still unread, and the "nesting at a point".
struct Reader<'r> {
    tokens: &'r [Token],
    next: usize,
    nesting: u32,
    items: Vec<Item>,
}

impl Reader<'_> {
    /// The text: the first unread token; the text's end stays the last one.
    fn token(&self) -> Token {
        self.tokens[self.next]
    }

    /// Codes: code 3 is given at the "token, or text length".
    fn not_allowed<T>(&self) -> Read<T> {
        Err(Refusal::new(Code::NotAllowed, self.token().place))
    }

    /// The text: takes this sign or word and no other.
    fn expect(&mut self, form: Form) -> Read<u32> {
        let token = self.token();
        if token.form != form {
            return self.not_allowed();
        }
        self.next += 1;
        Ok(token.place)
    }

    /// The text: "an allowed one that opens the 33rd gives code 4".
    fn open(&mut self) -> Read<()> {
        if self.nesting == DEEPEST {
            return Err(Refusal::new(Code::TooDeep, self.token().place));
        }
        self.nesting += 1;
        Ok(())
    }

    /// The text: what was opened is complete.
    fn close(&mut self) {
        self.nesting -= 1;
    }

    /// The text: statements up to the sign that ends them, `}` or the text's end.
    fn sequence(&mut self, end: Form) -> Read<Vec<Statement>> {
        let mut statements = Vec::new();
        while self.token().form != end {
            statements.push(self.statement()?);
        }
        Ok(statements)
    }

    /// The text: "A branch or body opens at its first token".
    fn branch(&mut self) -> Read<Box<Statement>> {
        if !starts_statement(self.token().form) {
            return self.not_allowed();
        }
        self.open()?;
        let statement = self.statement()?;
        self.close();
        Ok(Box::new(statement))
    }

    /// The text: "Statements: ..", each known by its first token.
    fn statement(&mut self) -> Read<Statement> {
        let Token { place, form } = self.token();
        let shape = match form {
            Form::Semicolon => self.empty()?,
            Form::OpenBrace => self.braces()?,
            Form::Int => self.declaration(Kind::Int)?,
            Form::Bool => self.declaration(Kind::Bool)?,
            Form::Float => self.declaration(Kind::Float)?,
            Form::Name { .. } => self.assignment()?,
            Form::If => self.choice()?,
            Form::While => self.repetition()?,
            Form::Scalar => self.scalar()?,
            _ => return self.not_allowed(),
        };
        Ok(Statement { place, shape })
    }

    /// The text: "empty `;`".
    fn empty(&mut self) -> Read<Shape> {
        self.expect(Form::Semicolon)?;
        Ok(Shape::Empty)
    }

    /// The text: "a braced sequence (perhaps empty)".
    fn braces(&mut self) -> Read<Shape> {
        self.open()?;
        self.expect(Form::OpenBrace)?;
        let statements = self.sequence(Form::CloseBrace)?;
        self.expect(Form::CloseBrace)?;
        self.close();
        Ok(Shape::Sequence(statements))
    }

    /// The text: "a declaration, a declaration with initial value".
    fn declaration(&mut self, kind: Kind) -> Read<Shape> {
        self.next += 1;
        let block = self.block()?;
        let name = self.name()?;
        let value = match self.token().form {
            Form::Assign => Some(self.right_side()?),
            _ => None,
        };
        self.expect(Form::Semicolon)?;
        Ok(Shape::Declaration(Declaration {
            kind,
            block,
            name,
            value,
        }))
    }

    /// The text: "then perhaps `block[N]`".
    fn block(&mut self) -> Read<Option<(u32, u32)>> {
        if self.token().form != Form::Block {
            return Ok(None);
        }
        self.next += 1;
        self.expect(Form::OpenBracket)?;
        let Token { place, form } = self.token();
        let number = match form {
            Form::Number(number) => number,
            _ => return self.not_allowed(),
        };
        self.next += 1;
        self.expect(Form::CloseBracket)?;
        Ok(Some((number, place)))
    }

    /// The text: a name where nothing else is allowed.
    fn name(&mut self) -> Read<Name> {
        let Token { place, form } = self.token();
        let length = match form {
            Form::Name { length } => length,
            _ => return self.not_allowed(),
        };
        self.next += 1;
        Ok(Name { place, length })
    }

    /// The text: "assignment to a name".
    fn assignment(&mut self) -> Read<Shape> {
        let name = self.name()?;
        let right_side = self.right_side()?;
        self.expect(Form::Semicolon)?;
        Ok(Shape::Assignment(name, right_side))
    }

    /// Typing: "The right side", after its `=`.
    fn right_side(&mut self) -> Read<RightSide> {
        let assign = self.expect(Form::Assign)?;
        let expression = self.expression()?;
        Ok(RightSide { assign, expression })
    }

    /// The text: "`if` with parenthesised condition and always an `else`".
    fn choice(&mut self) -> Read<Shape> {
        self.next += 1;
        let condition = self.condition()?;
        let first = self.branch()?;
        self.expect(Form::Else)?;
        let second = self.branch()?;
        Ok(Shape::If(condition, first, second))
    }

    /// The text: "`while`", with a condition and a body.
    fn repetition(&mut self) -> Read<Shape> {
        self.next += 1;
        let condition = self.condition()?;
        let body = self.branch()?;
        Ok(Shape::While(condition, body))
    }

    /// The text: "`scalar` before a statement".
    fn scalar(&mut self) -> Read<Shape> {
        self.next += 1;
        Ok(Shape::Scalar(self.branch()?))
    }

    /// The text: a "parenthesised condition", whose `(` counts as any other.
    fn condition(&mut self) -> Read<Expression> {
        if self.token().form != Form::OpenParenthesis {
            return self.not_allowed();
        }
        let first = self.items.len() as u32;
        self.parenthesised()?;
        let end = self.items.len() as u32;
        Ok(Expression { first, end })
    }

    /// The text: "Expressions, loosest first".
    fn expression(&mut self) -> Read<Expression> {
        let first = self.items.len() as u32;
        self.operators(0)?;
        let end = self.items.len() as u32;
        Ok(Expression { first, end })
    }

    /// The text: "Binary operators group to the left", from this level to the tightest.
    fn operators(&mut self, loosest: u32) -> Read<()> {
        self.operand()?;
        loop {
            let Token { place, form } = self.token();
            let (operator, level) = match binary(form) {
                Some(found) => found,
                None => return Ok(()),
            };
            if level < loosest {
                return Ok(());
            }
            self.next += 1;
            self.operators(level + 1)?;
            self.items.push(Item::Binary(operator, place));
        }
    }

    /// The text: "then unary `-` `~` `!`, then number, true, false, name, current_mask, or a
    /// parenthesised expression".
    fn operand(&mut self) -> Read<()> {
        let Token { place, form } = self.token();
        let item = match form {
            Form::Minus => return self.unary(Unary::Minus, place),
            Form::Tilde => return self.unary(Unary::Complement, place),
            Form::Bang => return self.unary(Unary::Not, place),
            Form::OpenParenthesis => return self.parenthesised(),
            Form::Number(number) => Item::Number(number),
            Form::Single(pattern) => Item::Single(pattern),
            Form::True => Item::Truth(true),
            Form::False => Item::Truth(false),
            Form::CurrentMask => Item::CurrentMask,
            Form::Name { length } => Item::Name(Name { place, length }),
            _ => return self.not_allowed(),
        };
        self.next += 1;
        self.items.push(item);
        Ok(())
    }

    /// The text: "unary operators whose operand is not complete" count as nesting.
    fn unary(&mut self, operator: Unary, place: u32) -> Read<()> {
        self.open()?;
        self.next += 1;
        self.operand()?;
        self.close();
        self.items.push(Item::Unary(operator, place));
        Ok(())
    }

    /// The text: "a parenthesised expression that again holds any operator".
    fn parenthesised(&mut self) -> Read<()> {
        self.open()?;
        self.next += 1;
        self.operators(0)?;
        self.expect(Form::CloseParenthesis)?;
        self.close();
        Ok(())
    }
}

/// The text: the tokens with which one of the "Statements" can begin.
fn starts_statement(form: Form) -> bool {
    matches!(
        form,
        Form::Semicolon
            | Form::OpenBrace
            | Form::Int
            | Form::Bool
            | Form::Float
            | Form::Name { .. }
            | Form::If
            | Form::While
            | Form::Scalar
    )
}

/// The text: "loosest first: `|`, `^`, `&`, (`==` `!=`), (`<` `>` `<=` `>=`), (`+` `-`), `*`".
fn binary(form: Form) -> Option<(Binary, u32)> {
    match form {
        Form::Or => Some((Binary::Or, 0)),
        Form::Xor => Some((Binary::Xor, 1)),
        Form::And => Some((Binary::And, 2)),
        Form::Equal => Some((Binary::Equal, 3)),
        Form::Unequal => Some((Binary::Unequal, 3)),
        Form::Less => Some((Binary::Less, 4)),
        Form::Greater => Some((Binary::Greater, 4)),
        Form::AtMost => Some((Binary::AtMost, 4)),
        Form::AtLeast => Some((Binary::AtLeast, 4)),
        Form::Plus => Some((Binary::Add, 5)),
        Form::Minus => Some((Binary::Subtract, 5)),
        Form::Star => Some((Binary::Multiply, 6)),
        _ => None,
    }
}
