//! Document 01, "The text": statements and expressions as read, with the places refusals need.

/// The text: "A program is a sequence of statements, perhaps empty."
#[derive(Debug)]
pub struct Tree {
    /// The text: the program's statements in order.
    pub statements: Vec<Statement>,
    /// The text: the items of all expressions, each expression a range of them.
    pub items: Vec<Item>,
}

/// The text: a statement, and the place of its first token.
#[derive(Debug)]
pub struct Statement {
    /// Codes: "first token of its statement".
    pub place: u32,
    /// The text: which of the "Statements" it is.
    pub shape: Shape,
}

/// The text: "Statements: empty `;`, a braced sequence (perhaps empty), a declaration, a
/// declaration with initial value, assignment to a name, `if` .., `while`, and `scalar`".
#[derive(Debug)]
pub enum Shape {
    Empty,
    Sequence(Vec<Statement>),
    Declaration(Declaration),
    Assignment(Name, RightSide),
    If(Expression, Box<Statement>, Box<Statement>),
    While(Expression, Box<Statement>),
    Scalar(Box<Statement>),
}

/// The text: "a declaration, a declaration with initial value".
#[derive(Debug)]
pub struct Declaration {
    /// The text: "A type is `int` or `bool`"; document 02, R-2: or `float`.
    pub kind: Kind,
    /// The text: "then perhaps `block[N]`", with the place of N.
    pub block: Option<(u32, u32)>,
    /// The text: the name it declares.
    pub name: Name,
    /// The text: its "initial value".
    pub value: Option<RightSide>,
}

/// Typing: "Each expression has a kind", int or bool; document 02, R-2: "Add `float`".
#[derive(Clone, Copy, Debug, PartialEq, Eq)]
pub enum Kind {
    Int,
    Bool,
    Float,
}

/// The text: a name where it stands.
#[derive(Clone, Copy, Debug)]
pub struct Name {
    /// Codes: the place "name".
    pub place: u32,
    /// The text: how many "letters, digits, `_`" it has.
    pub length: u8,
}

impl Name {
    /// The text: "a letter or `_`, then letters, digits, `_`", where this name stands.
    pub fn bytes(self, text: &[u8]) -> &[u8] {
        let start = self.place as usize;
        &text[start..start + usize::from(self.length)]
    }
}

/// Typing: "The right side" of an assignment or declaration, with the place of its `=`.
#[derive(Clone, Copy, Debug)]
pub struct RightSide {
    /// Codes: the place "`=`".
    pub assign: u32,
    /// Typing: the expression whose value is written.
    pub expression: Expression,
}

/// The text: an expression, as a range of the tree's items in the order of their evaluation.
#[derive(Clone, Copy, Debug)]
pub struct Expression {
    /// Codes: the first item, where "operands left to right" begins.
    pub first: u32,
    /// Codes: one after the last item, which is the outermost operator.
    pub end: u32,
}

/// Codes: "Within an operator: operands left to right", then the operator with its place.
#[derive(Clone, Copy, Debug)]
pub enum Item {
    Number(u32),
    /// Document 02, R-2: "A constant", by its pattern.
    Single(u32),
    Truth(bool),
    CurrentMask,
    Name(Name),
    Unary(Unary, u32),
    Binary(Binary, u32),
}

/// The text: "unary `-` `~` `!`".
#[derive(Clone, Copy, Debug, PartialEq, Eq)]
pub enum Unary {
    Minus,
    Complement,
    Not,
}

/// The text: "`|`, `^`, `&`, (`==` `!=`), (`<` `>` `<=` `>=`), (`+` `-`), `*`".
#[derive(Clone, Copy, Debug, PartialEq, Eq)]
pub enum Binary {
    Or,
    Xor,
    And,
    Equal,
    Unequal,
    Less,
    Greater,
    AtMost,
    AtLeast,
    Add,
    Subtract,
    Multiply,
}
