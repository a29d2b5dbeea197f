//! Kinds and lengths: what each statement does, or what is wrong and the facts of it.

use super::expression::{Expression, Item, Part};
use super::facts;
use super::tokens::{number, Token};
use super::tree::{Shape, Statement, Value};
use super::Refused;
use crate::routine::Kind;
use crate::source::Source;
use std::ops::Range;

/// The lengths of blocks.
const LENGTHS: [usize; 7] = [1, 2, 4, 8, 16, 32, 64];

/// The most declarations.
const MOST: usize = 64;

/// A kind and a length.
#[derive(Clone, Copy, Debug, PartialEq, Eq)]
pub struct Type {
    /// The kind.
    pub kind: Kind,
    /// The number of lanes.
    pub length: usize,
}

/// An operand's type, and where it stands.
#[derive(Clone, Debug)]
pub struct Found {
    /// Its type.
    pub of: Type,
    /// Where it stands.
    pub span: Range<usize>,
}

/// The condition under which a statement stands.
#[derive(Clone, Copy, Debug)]
pub struct Context {
    /// How many lanes it has.
    pub length: usize,
    /// Where its `if` or `while` stands.
    pub place: usize,
}

/// A declaration that was read.
#[derive(Clone, Debug)]
pub struct Declared<'t> {
    /// Its name.
    pub name: Token<'t>,
    /// Its type.
    pub of: Type,
    /// Whether its scope is open.
    pub open: bool,
}

/// A condition, with the variable of each name.
#[derive(Clone, Debug)]
pub struct Condition<'t> {
    /// Its parts, and which declaration each name is.
    pub items: Vec<(Item<'t>, Option<usize>)>,
    /// How many lanes it has.
    pub length: usize,
}

/// What a statement that costs a step does.
#[derive(Clone, Debug)]
pub enum Action<'t> {
    /// Nothing: `;`.
    Nothing,
    /// Declares this variable and leaves its bytes.
    Declares(usize),
    /// Writes this variable.
    Writes(usize),
    /// Tests a condition.
    Tests(Condition<'t>),
    /// Tests a condition for a body that stands here.
    Repeats(Condition<'t>, Range<usize>),
}

/// A statement that costs a step.
#[derive(Clone, Debug)]
pub struct Doing<'t> {
    /// Where it stands; of an `if` or `while` the part up to its condition.
    pub head: Range<usize>,
    /// What it does.
    pub action: Action<'t>,
}

/// A refusal, and what is known of it.
#[derive(Clone, Debug)]
pub struct Known {
    /// Code and place.
    pub refused: Refused,
    /// The facts, in words.
    pub facts: Vec<String>,
}

/// Typing stops at the first refusal.
pub type Typed<T> = Result<T, Known>;

/// What each statement that costs a step does, in text order.
pub fn doings<'t>(source: &Source, read: &[Statement<'t>]) -> Typed<Vec<Doing<'t>>> {
    let mut typing = Typing {
        source,
        declared: Vec::new(),
        doings: Vec::new(),
        stack: Vec::new(),
    };
    let start = Context {
        length: 1,
        place: 0,
    };
    typing.statements(read, start)?;
    Ok(typing.doings)
}

/// What is known at a point of the text.
pub struct Typing<'s, 't> {
    /// The text.
    pub source: &'s Source,
    /// The declarations so far.
    pub declared: Vec<Declared<'t>>,
    doings: Vec<Doing<'t>>,
    stack: Vec<Found>,
}

impl<'t> Typing<'_, 't> {
    /// Statements one after the other.
    fn statements(&mut self, statements: &[Statement<'t>], context: Context) -> Typed<()> {
        for statement in statements {
            self.statement(statement, context)?;
        }
        Ok(())
    }

    /// Statements whose declarations are closed at their end.
    fn scope(&mut self, statements: &[Statement<'t>], context: Context) -> Typed<()> {
        let before = self.declared.len();
        self.statements(statements, context)?;
        for declared in &mut self.declared[before..] {
            declared.open = false;
        }
        Ok(())
    }

    /// A branch or a body, which is a scope.
    fn branch(&mut self, statement: &Statement<'t>, context: Context) -> Typed<()> {
        self.scope(std::slice::from_ref(statement), context)
    }

    /// One statement.
    fn statement(&mut self, statement: &Statement<'t>, context: Context) -> Typed<()> {
        let place = statement.head.start;
        match &statement.shape {
            Shape::Empty => self.does(statement, Action::Nothing),
            Shape::Braces(statements) => return self.scope(statements, context),
            Shape::Declaration(kind, lanes, name, value) => {
                let declared = self.declaration(*kind, *lanes, *name, value.as_ref(), context)?;
                let action = match value {
                    Some(_) => Action::Writes(declared),
                    None => Action::Declares(declared),
                };
                self.does(statement, action);
            }
            Shape::Assignment(name, value) => {
                let target = self.name(*name, context, None)?;
                let of = self.declared[target].of;
                let found = self.typed(&value.expression, context, None)?;
                self.stored(*name, of, value.assign, found, context)?;
                self.does(statement, Action::Writes(target));
            }
            Shape::If(condition, first, second) => {
                let condition = self.condition(place, condition, context)?;
                let inner = context.under(place, condition.length);
                self.does(statement, Action::Tests(condition));
                self.branch(first, inner)?;
                self.branch(second, inner)?;
            }
            Shape::While(condition, body) => {
                let condition = self.condition(place, condition, context)?;
                let inner = context.under(place, condition.length);
                let held = statement.head.end..statement.end;
                self.does(statement, Action::Repeats(condition, held));
                self.branch(body, inner)?;
            }
            Shape::Scalar(body) => self.branch(body, Context { length: 1, place })?,
        }
        Ok(())
    }

    /// The statement costs a step and does this.
    fn does(&mut self, statement: &Statement<'t>, action: Action<'t>) {
        let head = statement.head.clone();
        self.doings.push(Doing { head, action });
    }

    /// A declaration; gives its number.
    fn declaration(
        &mut self,
        kind: Kind,
        lanes: Option<Token<'t>>,
        name: Token<'t>,
        value: Option<&Value<'t>>,
        context: Context,
    ) -> Typed<usize> {
        let stated = match lanes {
            Some(lanes) => Some(block_length(lanes)?),
            None => None,
        };
        let length = match value {
            Some(value) => {
                let found = self.typed(&value.expression, context, Some(name))?;
                let length = stated.unwrap_or(found.of.length);
                self.stored(name, Type { kind, length }, value.assign, found, context)?;
                length
            }
            None => stated.unwrap_or(1),
        };
        self.declare(name, Type { kind, length }, context)
    }

    /// One more name is open; gives its number.
    fn declare(&mut self, name: Token<'t>, of: Type, context: Context) -> Typed<usize> {
        self.fits(name, of, context)?;
        if let Some(first) = self
            .declared
            .iter()
            .find(|d| d.open && d.name.text == name.text)
        {
            let fact = facts::first_declared(self.source, first);
            return refuse(6, name.start, vec![fact]);
        }
        if self.declared.len() == MOST {
            return refuse(11, name.start, Vec::new());
        }
        self.declared.push(Declared {
            name,
            of,
            open: true,
        });
        Ok(self.declared.len() - 1)
    }

    /// A name of this length can stand in this context.
    fn fits(&self, name: Token<'t>, of: Type, context: Context) -> Typed<()> {
        if context.length == 1 || of.length == 1 || of.length == context.length {
            return Ok(());
        }
        let fact = facts::name_in_context(self.source, name, of, context);
        refuse(9, name.start, vec![fact])
    }

    /// The declaration that a name stands for; `own` is the name that it helps to declare.
    fn name(&self, name: Token<'t>, context: Context, own: Option<Token>) -> Typed<usize> {
        let mut declared = self.declared.iter();
        match declared.position(|known| known.open && known.name.text == name.text) {
            Some(found) => {
                self.fits(name, self.declared[found].of, context)?;
                Ok(found)
            }
            None => refuse(5, name.start, facts::unknown_name(self, name, own)),
        }
    }

    /// A value is stored in a target of this type.
    fn stored(
        &self,
        name: Token<'t>,
        of: Type,
        assign: Token<'t>,
        found: Found,
        context: Context,
    ) -> Typed<()> {
        let place = assign.start;
        let (source, length) = (self.source, found.of.length);
        if found.of.kind != of.kind {
            return refuse(8, place, facts::stored_kind(source, name, of, &found));
        }
        if length != of.length && length != 1 {
            return refuse(
                9,
                place,
                vec![facts::stored_length(source, name, of, &found)],
            );
        }
        if context.length > 1 && of.length == 1 {
            let open = |known: &Declared| known.open && known.name.text == name.text;
            let open = self.declared.iter().any(open);
            let facts = facts::one_lane(source, name, of, context, open);
            return refuse(10, place, facts);
        }
        Ok(())
    }

    /// A condition, which is a bool.
    fn condition(
        &mut self,
        place: usize,
        expression: &Expression<'t>,
        context: Context,
    ) -> Typed<Condition<'t>> {
        let found = self.typed(expression, context, None)?;
        if found.of.kind != Kind::Bool {
            return refuse(8, place, facts::condition(self.source, place, &found));
        }
        let items = expression.items.iter().map(|item| {
            let mut declared = self.declared.iter();
            let named = |d: &Declared| d.open && d.name.text == item.token.text;
            (item.clone(), declared.position(named))
        });
        Ok(Condition {
            items: items.collect(),
            length: found.of.length,
        })
    }

    /// An expression's type; `own` is the name that it is the initial value of.
    fn typed(
        &mut self,
        expression: &Expression<'t>,
        context: Context,
        own: Option<Token<'t>>,
    ) -> Typed<Found> {
        self.stack.clear();
        for item in &expression.items {
            let of = self.item(item, context, own)?;
            let span = item.span.clone();
            self.stack.push(Found { of, span });
        }
        Ok(Found {
            span: expression.span.clone(),
            ..self.operand()
        })
    }

    /// The last operand that waits for its operator.
    fn operand(&mut self) -> Found {
        self.stack
            .pop()
            .expect("operands are read before their operator")
    }

    /// The type of one part, whose operands wait.
    fn item(&mut self, item: &Item<'t>, context: Context, own: Option<Token>) -> Typed<Type> {
        let (kind, length) = match item.part {
            Part::Number => (Kind::Int, 1),
            Part::Decimal => (Kind::Float, 1),
            Part::Truth => (Kind::Bool, 1),
            Part::CurrentMask => (Kind::Bool, context.length),
            Part::Name => {
                let found = self.name(item.token, context, own)?;
                return Ok(self.declared[found].of);
            }
            Part::Unary => {
                let operand = self.operand();
                let taken: &[Kind] = match item.token.text {
                    "!" => &[Kind::Bool],
                    "~" => &[Kind::Int],
                    _ => &[Kind::Int, Kind::Float],
                };
                if !taken.contains(&operand.of.kind) {
                    let facts = facts::operands(self.source, item.token, taken, &[operand]);
                    return refuse(8, item.token.start, facts);
                }
                return Ok(operand.of);
            }
            Part::Binary => return self.binary(item.token),
        };
        Ok(Type { kind, length })
    }

    /// The type of a binary operator's value.
    fn binary(&mut self, operator: Token<'t>) -> Typed<Type> {
        let right = self.operand();
        let left = self.operand();
        let (a, b) = (left.of, right.of);
        let taken: &[Kind] = match operator.text {
            "|" | "^" | "&" => &[Kind::Int, Kind::Bool],
            "==" | "!=" => &[Kind::Int, Kind::Bool, Kind::Float],
            _ => &[Kind::Int, Kind::Float],
        };
        if a.kind != b.kind || !taken.contains(&a.kind) {
            let facts = facts::operands(self.source, operator, taken, &[left, right]);
            return refuse(8, operator.start, facts);
        }
        if a.length != b.length && a.length != 1 && b.length != 1 {
            let fact = facts::operand_lengths(self.source, &left, &right);
            return refuse(9, operator.start, vec![fact]);
        }
        let kind = match operator.text {
            "|" | "^" | "&" | "+" | "-" | "*" => a.kind,
            _ => Kind::Bool,
        };
        let length = a.length.max(b.length);
        Ok(Type { kind, length })
    }
}

impl Context {
    /// The context under a condition of this length.
    fn under(self, place: usize, length: usize) -> Context {
        match length {
            1 => self,
            _ => Context { length, place },
        }
    }
}

/// A refusal with its facts.
fn refuse<T>(code: u32, place: usize, facts: Vec<String>) -> Typed<T> {
    let refused = Refused { code, place };
    Err(Known { refused, facts })
}

/// The length of a block.
fn block_length(lanes: Token) -> Typed<usize> {
    let given = number(lanes.text).map_or(usize::MAX, |given| given as usize);
    match LENGTHS.contains(&given) {
        true => Ok(given),
        false => refuse(7, lanes.start, facts::block_length(given, &LENGTHS)),
    }
}
