//! Expressions as trees, written with the parentheses that document 01's levels ask for.

use crate::random::Random;

/// The level of unary operators, tighter than every binary one.
const UNARY_LEVEL: u32 = 7;

/// An expression by its tokens and operators.
#[derive(Clone, Debug)]
pub enum Expression {
    /// A number, a name, `true`, `false` or `current_mask`.
    Leaf(String),
    /// A unary operator and its operand.
    Unary(&'static str, Box<Expression>),
    /// A binary operator between its operands.
    Binary(&'static str, Box<Expression>, Box<Expression>),
}

impl Expression {
    /// A leaf of this token.
    pub fn leaf(token: impl Into<String>) -> Self {
        Expression::Leaf(token.into())
    }

    /// A unary operator before an operand.
    pub fn unary(sign: &'static str, operand: Expression) -> Self {
        Expression::Unary(sign, Box::new(operand))
    }

    /// A binary operator between two operands.
    pub fn binary(sign: &'static str, left: Expression, right: Expression) -> Self {
        Expression::Binary(sign, Box::new(left), Box::new(right))
    }

    /// Appends the tokens of this expression, with spare parentheses now and then.
    pub fn write(&self, tokens: &mut Vec<String>, random: &mut Random) {
        self.write_at(0, tokens, random);
    }

    /// Appends the tokens where operators looser than `loosest` must stand in parentheses.
    fn write_at(&self, loosest: u32, tokens: &mut Vec<String>, random: &mut Random) {
        if self.level() < loosest || random.once_in(16) {
            tokens.push("(".into());
            self.write_bare(tokens, random);
            tokens.push(")".into());
        } else {
            self.write_bare(tokens, random);
        }
    }

    /// Appends the tokens without parentheses round the whole.
    fn write_bare(&self, tokens: &mut Vec<String>, random: &mut Random) {
        match self {
            Expression::Leaf(token) => tokens.push(token.clone()),
            Expression::Unary(sign, operand) => {
                tokens.push((*sign).into());
                operand.write_at(UNARY_LEVEL, tokens, random);
            }
            Expression::Binary(sign, left, right) => {
                let level = self.level();
                left.write_at(level, tokens, random);
                tokens.push((*sign).into());
                right.write_at(level + 1, tokens, random);
            }
        }
    }

    /// The level of the outermost operator, loosest 0; a leaf is tighter than all.
    fn level(&self) -> u32 {
        match self {
            Expression::Leaf(_) => UNARY_LEVEL + 1,
            Expression::Unary(..) => UNARY_LEVEL,
            Expression::Binary(sign, ..) => match *sign {
                "|" => 0,
                "^" => 1,
                "&" => 2,
                "==" | "!=" => 3,
                "<" | ">" | "<=" | ">=" => 4,
                "+" | "-" => 5,
                _ => 6,
            },
        }
    }
}
