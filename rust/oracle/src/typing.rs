//! Document 01, "Typing": from a tree to a program, with codes 5 to 11.

use crate::answer::{Code, Refusal};
use crate::lanes::{Length, LENGTHS};
use crate::memory::address_after;
use crate::program::{Expression, Item, Program, Row, Statement, Variable};
use crate::tree::{self, Binary, Declaration, Kind, Name, RightSide, Shape, Tree, Unary};

/// Codes: the "65th declaration" is refused.
const MOST_DECLARATIONS: usize = 64;

/// Typing: "The context length C is 1 at the start."
const FIRST_CONTEXT: Length = 1;

/// Codes: "5 to 11 in text order", then the program that runs.
pub fn program(text: &[u8], tree: &Tree) -> Result<Program, Refusal> {
    let mut typing = Typing {
        text,
        read: &tree.items,
        open: Vec::new(),
        rows: Vec::new(),
        end: 0,
        items: Vec::with_capacity(tree.items.len()),
        waiting: Vec::new(),
        most_waiting: 1,
    };
    let statements = typing.statements(&tree.statements, FIRST_CONTEXT)?;
    Ok(Program {
        statements,
        items: typing.items,
        rows: typing.rows,
        need: typing.end,
        most_waiting: typing.most_waiting,
    })
}

/// Codes: "The first refusal met ends the reading", so each call hands it up.
type Typed<T> = Result<T, Refusal>;

/// Typing: "Each expression has a kind and a length."
#[derive(Clone, Copy)]
struct Type {
    kind: Kind,
    length: Length,
}

/// Typing: what is known at a point of the text.
struct Typing<'r> {
    /// The text: where names have their bytes.
    text: &'r [u8],
    /// The text: the items of all expressions, as read.
    read: &'r [tree::Item],
    /// Typing: "the declarations of the open scopes".
    open: Vec<(&'r [u8], Variable)>,
    /// Memory: "Every declaration in the text", so far.
    rows: Vec<Row>,
    /// Memory: "the end of the last one", so far.
    end: u32,
    /// Typing: the items typed so far, each at the index it was read at.
    items: Vec<Item>,
    /// Typing: the operands whose operator is not yet reached.
    waiting: Vec<Type>,
    /// Execution: the most operands that waited at once.
    most_waiting: usize,
}

impl Typing<'_> {
    /// The text: "a sequence of statements", each typed after the one before.
    fn statements(
        &mut self,
        statements: &[tree::Statement],
        context: Length,
    ) -> Typed<Vec<Statement>> {
        let mut typed = Vec::with_capacity(statements.len());
        for statement in statements {
            typed.push(self.statement(statement, context)?);
        }
        Ok(typed)
    }

    /// Typing: "Braces, branches and bodies are scopes": here a branch or body.
    fn branch(&mut self, statement: &tree::Statement, context: Length) -> Typed<Box<Statement>> {
        let opened = self.open.len();
        let typed = self.statement(statement, context)?;
        self.open.truncate(opened);
        Ok(Box::new(typed))
    }

    /// Typing: a statement where the context length is C.
    fn statement(&mut self, read: &tree::Statement, context: Length) -> Typed<Statement> {
        let place = read.place;
        match &read.shape {
            Shape::Empty => Ok(Statement::Idle { place }),
            Shape::Sequence(statements) => self.braces(statements, context),
            Shape::Declaration(declaration) => self.declaration(place, declaration, context),
            Shape::Assignment(name, value) => self.assignment(place, *name, *value, context),
            Shape::If(condition, first, second) => {
                let (condition, inner) = self.condition(place, *condition, context)?;
                Ok(Statement::If {
                    place,
                    condition,
                    first: self.branch(first, inner)?,
                    second: self.branch(second, inner)?,
                })
            }
            Shape::While(condition, body) => {
                let (condition, inner) = self.condition(place, *condition, context)?;
                let body = self.branch(body, inner)?;
                Ok(Statement::While {
                    place,
                    condition,
                    body,
                })
            }
            // Typing: "`scalar` makes it 1."
            Shape::Scalar(body) => Ok(Statement::Scalar(self.branch(body, 1)?)),
        }
    }

    /// Typing: "Braces, branches and bodies are scopes": here braces.
    fn braces(&mut self, statements: &[tree::Statement], context: Length) -> Typed<Statement> {
        let opened = self.open.len();
        let typed = self.statements(statements, context)?;
        self.open.truncate(opened);
        Ok(Statement::Sequence(typed))
    }

    /// Codes: "Declaration: 7, the initial value, 8, 9, 10 at `=`, then at the name 9 .., 6, 11."
    fn declaration(
        &mut self,
        place: u32,
        declaration: &Declaration,
        context: Length,
    ) -> Typed<Statement> {
        let kind = declaration.kind;
        let stated = match declaration.block {
            Some((number, place)) => Some(block_length(number, place)?),
            None => None,
        };
        let right_side = match declaration.value {
            Some(right_side) => right_side,
            None => {
                let length = stated.unwrap_or(1);
                self.declare(declaration.name, Type { kind, length }, context)?;
                return Ok(Statement::Idle { place });
            }
        };
        let (value, found) = self.expression(right_side.expression, context)?;
        let length = stated.unwrap_or(found.length);
        let target = Type { kind, length };
        check_store(target, found, right_side.assign, context)?;
        let target = self.declare(declaration.name, target, context)?;
        Ok(Statement::Store {
            place,
            target,
            value,
        })
    }

    /// Codes: "then at the name 9 (length neither 1 nor C, where C is above 1), 6, 11"; Memory:
    /// "the next multiple of its whole size".
    fn declare(&mut self, name: Name, target: Type, context: Length) -> Typed<Variable> {
        check_name_length(target.length, name.place, context)?;
        if self.find(name).is_some() {
            return Err(Refusal::new(Code::AlreadyOpen, name.place));
        }
        if self.rows.len() == MOST_DECLARATIONS {
            return Err(Refusal::new(Code::TooManyDeclarations, name.place));
        }
        let Type { kind, length } = target;
        let variable = Variable {
            kind,
            length,
            address: address_after(self.end, kind, length),
        };
        self.end = variable.end();
        self.open.push((name.bytes(self.text), variable));
        self.rows.push(Row {
            place: name.place,
            kind: kind as u32,
            length: u32::from(length),
            address: variable.address,
        });
        Ok(variable)
    }

    /// Typing: "A name is looked for among the declarations of the open scopes".
    fn find(&self, name: Name) -> Option<Variable> {
        let name = name.bytes(self.text);
        let found = self.open.iter().find(|(open, _)| *open == name);
        found.map(|(_, variable)| *variable)
    }

    /// Codes: 5 at a name that is not open, then 9 where its length does not fit the context.
    fn name(&self, name: Name, context: Length) -> Typed<Variable> {
        let found = self.find(name);
        let variable = found.ok_or(Refusal::new(Code::UnknownName, name.place))?;
        check_name_length(variable.length, name.place, context)?;
        Ok(variable)
    }

    /// Codes: "Assignment: 5, 9 at the target, the right side, then 8, 9, 10 at `=`."
    fn assignment(
        &mut self,
        place: u32,
        name: Name,
        right_side: RightSide,
        context: Length,
    ) -> Typed<Statement> {
        let target = self.name(name, context)?;
        let (value, found) = self.expression(right_side.expression, context)?;
        let Variable { kind, length, .. } = target;
        check_store(Type { kind, length }, found, right_side.assign, context)?;
        Ok(Statement::Store {
            place,
            target,
            value,
        })
    }

    /// Codes: "A condition: its expression, then 8"; Typing: "Its branches or body have context
    /// length C if the condition's length is 1, otherwise the condition's length."
    fn condition(
        &mut self,
        place: u32,
        condition: tree::Expression,
        context: Length,
    ) -> Typed<(Expression, Length)> {
        let (condition, found) = self.expression(condition, context)?;
        if found.kind != Kind::Bool {
            return Err(Refusal::new(Code::WrongKind, place));
        }
        let inner = match found.length {
            1 => context,
            length => length,
        };
        Ok((condition, inner))
    }

    /// Codes: "Within an operator: operands left to right, then 8, 9 at the operator."
    fn expression(
        &mut self,
        expression: tree::Expression,
        context: Length,
    ) -> Typed<(Expression, Type)> {
        let tree::Expression { first, end } = expression;
        debug_assert_eq!(self.items.len(), first as usize);
        self.waiting.clear();
        for index in first..end {
            let (item, found) = self.item(self.read[index as usize], context)?;
            self.items.push(item);
            self.waiting.push(found);
            self.most_waiting = self.most_waiting.max(self.waiting.len());
        }
        let found = self.operand();
        let length = found.length;
        Ok((Expression { first, end, length }, found))
    }

    /// Typing: "Constants have length 1. current_mask is bool of length C."
    fn item(&mut self, read: tree::Item, context: Length) -> Typed<(Item, Type)> {
        let (item, kind, length) = match read {
            tree::Item::Number(number) => (Item::Constant(number), Kind::Int, 1),
            tree::Item::Single(pattern) => (Item::Constant(pattern), Kind::Float, 1),
            tree::Item::Truth(truth) => (Item::Constant(u32::from(truth)), Kind::Bool, 1),
            tree::Item::CurrentMask => (Item::CurrentMask, Kind::Bool, context),
            tree::Item::Name(name) => {
                let variable = self.name(name, context)?;
                (Item::Load(variable), variable.kind, variable.length)
            }
            tree::Item::Unary(operator, place) => return self.unary(operator, place),
            tree::Item::Binary(operator, place) => return self.binary(operator, place),
        };
        Ok((item, Type { kind, length }))
    }

    /// Codes: the last operand that waits for its operator.
    fn operand(&mut self) -> Type {
        let operand = self.waiting.pop();
        operand.expect("an operator's operands are read before it")
    }

    /// Typing: "`-` `~` take int, `!` bool."; document 02, R-2: "unary minus" takes floats too.
    fn unary(&mut self, operator: Unary, place: u32) -> Typed<(Item, Type)> {
        let operand = self.operand();
        let Type { kind, length } = operand;
        let taken = match operator {
            Unary::Minus => is_number(kind),
            Unary::Complement => kind == Kind::Int,
            Unary::Not => kind == Kind::Bool,
        };
        if !taken {
            return Err(Refusal::new(Code::WrongKind, place));
        }
        Ok((Item::Unary(operator, kind, length), operand))
    }

    /// Typing: "A binary operator needs equal lengths or one of length 1, which is replicated."
    fn binary(&mut self, operator: Binary, place: u32) -> Typed<(Item, Type)> {
        let right = self.operand();
        let left = self.operand();
        let result = binary_kind(operator, left.kind, right.kind);
        let kind = result.ok_or(Refusal::new(Code::WrongKind, place))?;
        if left.length != right.length && left.length != 1 && right.length != 1 {
            return Err(Refusal::new(Code::WrongLength, place));
        }
        let length = left.length.max(right.length);
        let item = Item::Binary(operator, left.kind, (left.length, right.length));
        Ok((item, Type { kind, length }))
    }
}

/// Codes: 7 at N, "N not in the list"; document 02, R-9: code 7 reads "with the new list".
fn block_length(number: u32, place: u32) -> Typed<Length> {
    if !LENGTHS.contains(&number) {
        return Err(Refusal::new(Code::LengthNotListed, place));
    }
    Ok(number as Length)
}

/// Typing: "A name must have length 1 or C, unless C is 1."
fn check_name_length(length: Length, place: u32, context: Length) -> Typed<()> {
    if context != 1 && length != 1 && length != context {
        return Err(Refusal::new(Code::WrongLength, place));
    }
    Ok(())
}

/// Typing: "The right side has the target's kind, and its length or 1 .. Where C is above 1, a
/// target of length 1 is refused"; Codes: "8, 9, 10 at `=`".
fn check_store(target: Type, value: Type, assign: u32, context: Length) -> Typed<()> {
    if value.kind != target.kind {
        return Err(Refusal::new(Code::WrongKind, assign));
    }
    if value.length != target.length && value.length != 1 {
        return Err(Refusal::new(Code::WrongLength, assign));
    }
    if context != 1 && target.length == 1 {
        return Err(Refusal::new(Code::LengthOneTarget, assign));
    }
    Ok(())
}

/// Document 02, R-2: "with `+ - *`, unary minus and all comparisons": the kinds that have them all.
fn is_number(kind: Kind) -> bool {
    matches!(kind, Kind::Int | Kind::Float)
}

/// Typing: "`+ - *` and `< > <= >=` take ints; `== != & | ^` take two of one kind .. Comparisons
/// give bool, the others their operands' kind."; document 02, R-2: floats have "`+ - *` .. and all
/// comparisons", and 8 is given "for a float under `& | ^ ~` or mixed with int".
fn binary_kind(operator: Binary, left: Kind, right: Kind) -> Option<Kind> {
    if left != right {
        return None;
    }
    match operator {
        Binary::Or | Binary::Xor | Binary::And => (left != Kind::Float).then_some(left),
        Binary::Equal | Binary::Unequal => Some(Kind::Bool),
        Binary::Less | Binary::Greater | Binary::AtMost | Binary::AtLeast => {
            is_number(left).then_some(Kind::Bool)
        }
        Binary::Add | Binary::Subtract | Binary::Multiply => is_number(left).then_some(left),
    }
}
