//! Programs that the typing rules accept, as lists of tokens.

use crate::expression::Expression;
use crate::random::Random;
use crate::singles;

/// The lengths of blocks, but for 1.
pub const BLOCK_LENGTHS: [usize; 6] = [2, 4, 8, 16, 32, 64];

/// What a program may hold.
#[derive(Clone, Debug)]
pub struct Wishes {
    /// How many declarations stand first.
    pub declarations: usize,
    /// How many statements follow them in the outermost sequence.
    pub statements: usize,
    /// How deep statements may stand in one another.
    pub depth: usize,
    /// How deep operators may stand in one another.
    pub operators: usize,
    /// The block lengths above 1 that declarations may have.
    pub lengths: Vec<usize>,
    /// Whether `scalar` statements may occur.
    pub scalar: bool,
    /// Whether floats may occur.
    pub floats: bool,
    /// Whether loops may occur that perhaps never end.
    pub endless: bool,
}

impl Wishes {
    /// Every length and every statement, of a random size from a line to a page.
    pub fn any(random: &mut Random) -> Self {
        let size = *random.pick(&[1, 1, 2, 5, 10]);
        Wishes {
            declarations: random.between(1, 1 + size.min(5)),
            statements: random.between(1, size),
            depth: if size == 1 { 2 } else { 4 },
            operators: if size == 1 { 1 } else { 3 },
            lengths: lengths(random),
            scalar: true,
            floats: random.once_in(2),
            endless: random.once_in(3),
        }
    }

    /// No `scalar`, every block longer than one of this length: what demand 3 speaks of.
    pub fn one_length(length: usize, random: &mut Random) -> Self {
        Wishes {
            lengths: vec![length],
            scalar: false,
            endless: random.once_in(8),
            ..Wishes::any(random)
        }
    }
}

/// The lengths of one program: mostly two, so that its blocks meet each other, at times all.
fn lengths(random: &mut Random) -> Vec<usize> {
    match random.below(4) {
        0 => BLOCK_LENGTHS.to_vec(),
        _ => (0..2)
            .map(|_| *random.pick(&[2, 4, 4, 8, 16, 16, 32, 64]))
            .collect(),
    }
}

/// The tokens of a well-typed program.
pub fn well_typed(wishes: &Wishes, random: &mut Random) -> Vec<String> {
    let mut writer = Writer {
        random,
        wishes,
        tokens: Vec::new(),
        open: Vec::new(),
        declared: 0,
    };
    for _ in 0..wishes.declarations {
        writer.declaration(1);
    }
    for _ in 0..wishes.statements {
        writer.statement(1, 0);
    }
    writer.tokens
}

/// The most declarations a text may have.
const MOST_DECLARATIONS: usize = 64;

/// Int, bool or float.
#[derive(Clone, Copy, Debug, PartialEq, Eq)]
enum Kind {
    Int,
    Bool,
    Float,
}

impl Kind {
    /// The word that declares it.
    fn word(self) -> &'static str {
        match self {
            Kind::Int => "int",
            Kind::Bool => "bool",
            Kind::Float => "float",
        }
    }

    /// A constant of this small number, where the kind is one of numbers.
    fn small(self, number: usize) -> String {
        match self {
            Kind::Float => format!("{number}.0"),
            _ => number.to_string(),
        }
    }
}

/// A declaration of an open scope.
struct Variable {
    name: String,
    kind: Kind,
    length: usize,
    /// Not to be assigned, since a loop counts with it.
    kept: bool,
}

/// The tokens written so far and what is open behind them.
struct Writer<'r, 'w> {
    random: &'r mut Random,
    wishes: &'w Wishes,
    tokens: Vec<String>,
    open: Vec<Variable>,
    declared: usize,
}

impl Writer<'_, '_> {
    /// Appends these tokens, given with spaces between them.
    fn put(&mut self, tokens: &str) {
        let tokens = tokens.split_whitespace().map(String::from);
        self.tokens.extend(tokens);
    }

    /// Appends an expression.
    fn put_expression(&mut self, expression: &Expression) {
        expression.write(&mut self.tokens, self.random);
    }

    /// Appends one statement for this context length.
    fn statement(&mut self, context: usize, depth: usize) {
        let most = if depth < self.wishes.depth { 20 } else { 10 };
        match self.random.below(most) {
            0 => self.put(";"),
            1..=2 => self.declaration(context),
            3..=4 => self.declaration_with_value(context),
            5..=9 => self.assignment(context),
            10 => self.braces(context, depth),
            11..=14 => self.choice(context, depth),
            15..=17 => self.counted_loop(context, depth),
            18 if self.wishes.endless => self.free_loop(context, depth),
            19 if self.wishes.scalar => self.scalar(depth),
            _ => self.assignment(context),
        }
    }

    /// Appends a branch or body, a scope of its own.
    fn branch(&mut self, context: usize, depth: usize) {
        let opened = self.open.len();
        self.statement(context, depth + 1);
        self.open.truncate(opened);
    }

    /// Appends a branch or body that is more often braced than not.
    fn body(&mut self, context: usize, depth: usize) {
        if self.random.once_in(3) {
            self.branch(context, depth);
        } else {
            self.braces(context, depth);
        }
    }

    /// Appends a braced sequence, perhaps empty.
    fn braces(&mut self, context: usize, depth: usize) {
        let opened = self.open.len();
        self.put("{");
        for _ in 0..self.random.below(4) {
            self.statement(context, depth + 1);
        }
        self.put("}");
        self.open.truncate(opened);
    }

    /// Opens a name, among few, so that closed scopes' names come again.
    fn name(&mut self) -> String {
        let few = ["a", "b", "c", "n", "x", "ok", "s", "_t", "V1", "w_2"];
        let name = self.random.token(&few).to_string();
        if self.open.iter().all(|variable| variable.name != name) {
            return name;
        }
        format!("{name}{}", self.declared)
    }

    /// Appends the name and opens it.
    fn declare(&mut self, kind: Kind, length: usize, kept: bool) -> String {
        let name = self.name();
        self.put(&name);
        self.declared += 1;
        let variable = Variable {
            name: name.clone(),
            kind,
            length,
            kept,
        };
        self.open.push(variable);
        name
    }

    /// A kind at random.
    fn kind(&mut self) -> Kind {
        let ints = [Kind::Int, Kind::Int, Kind::Bool];
        let floats = [Kind::Float, Kind::Float, Kind::Int, Kind::Bool];
        match self.wishes.floats {
            true => *self.random.pick(&floats),
            false => *self.random.pick(&ints),
        }
    }

    /// Appends a type's kind, and its length where it is not 1 or once in a while.
    fn put_type(&mut self, kind: Kind, length: usize) {
        self.put(kind.word());
        if length != 1 || self.random.once_in(6) {
            self.put(&format!("block [ {length} ]"));
        }
    }

    /// A length that a declaration may have in this context.
    fn declared_length(&mut self, context: usize) -> usize {
        if self.random.once_in(3) {
            1
        } else if context > 1 {
            context
        } else {
            *self.random.pick(&self.wishes.lengths)
        }
    }

    /// Appends a declaration without a value.
    fn declaration(&mut self, context: usize) {
        if self.declared == MOST_DECLARATIONS {
            return self.put(";");
        }
        let kind = self.kind();
        let length = self.declared_length(context);
        self.put_type(kind, length);
        self.declare(kind, length, false);
        self.put(";");
    }

    /// Appends a declaration with a value; in a context above 1 its length is that of the context.
    fn declaration_with_value(&mut self, context: usize) {
        if self.declared == MOST_DECLARATIONS {
            return self.put(";");
        }
        let kind = self.kind();
        let reach = self.reach(kind, context);
        let value_length = *self.random.pick(&reach);
        let value = self.expression(kind, value_length, context, self.wishes.operators);
        let fits = value_length > 1 || context == 1;
        if fits && self.random.once_in(2) {
            self.put(kind.word());
            self.declare(kind, value_length, false);
        } else {
            let length = match (value_length, context) {
                (1, 1) => self.declared_length(1),
                (1, _) => context,
                _ => value_length,
            };
            self.put_type_of_value(kind, length);
            self.declare(kind, length, false);
        }
        self.put("=");
        self.put_expression(&value);
        self.put(";");
    }

    /// Appends a type that always states its length, since the value might state another.
    fn put_type_of_value(&mut self, kind: Kind, length: usize) {
        self.put(kind.word());
        self.put(&format!("block [ {length} ]"));
    }

    /// Appends an assignment, or `;` where nothing may be assigned.
    fn assignment(&mut self, context: usize) {
        let fits =
            |variable: &&Variable| !variable.kept && (context == 1 || variable.length == context);
        let targets: Vec<_> = self.open.iter().filter(fits).collect();
        if targets.is_empty() {
            return self.put(";");
        }
        let target = *self.random.pick(&targets);
        let (name, kind, length) = (target.name.clone(), target.kind, target.length);
        let reach = self.reach(kind, context);
        let whole = reach.contains(&length) && !self.random.once_in(4);
        let value_length = if whole { length } else { 1 };
        let value = self.expression(kind, value_length, context, self.wishes.operators);
        self.put(&name);
        self.put("=");
        self.put_expression(&value);
        self.put(";");
    }

    /// Appends a condition in parentheses and gives its branches' context length.
    fn condition(&mut self, context: usize) -> usize {
        let reach = self.reach(Kind::Bool, context);
        let length = *self.random.pick(&reach);
        let condition = self.expression(Kind::Bool, length, context, self.wishes.operators);
        self.put("(");
        self.put_expression(&condition);
        self.put(")");
        length.max(context)
    }

    /// Appends an `if`.
    fn choice(&mut self, context: usize, depth: usize) {
        self.put("if");
        let inner = self.condition(context);
        self.body(inner, depth);
        self.put("else");
        self.body(inner, depth);
    }

    /// Appends a `while` that perhaps never ends.
    fn free_loop(&mut self, context: usize, depth: usize) {
        self.put("while");
        let inner = self.condition(context);
        self.body(inner, depth);
    }

    /// Appends a `scalar` statement.
    fn scalar(&mut self, depth: usize) {
        self.put("scalar");
        self.branch(1, depth);
    }

    /// Appends, in braces, a counter and a loop that counts it down to 0 in every lane.
    fn counted_loop(&mut self, context: usize, depth: usize) {
        if self.declared + 2 > MOST_DECLARATIONS {
            return self.put(";");
        }
        let opened = self.open.len();
        self.put("{");
        let scalar = self.wishes.scalar;
        if scalar && context > 1 && self.random.once_in(3) {
            self.scalar_counter(context, depth);
        } else {
            let refills = scalar && self.random.once_in(3);
            let refills = refills.then(|| self.scalar_variable());
            self.lane_counter(refills, context, depth);
        }
        self.put("}");
        self.open.truncate(opened);
    }

    /// Appends a counter with a count of its own in each lane, and its loop, which may set all
    /// lanes of the counter anew for as many times as `refills` counts. It is an int or a float.
    fn lane_counter(&mut self, refills: Option<String>, context: usize, depth: usize) {
        let kind = match self.wishes.floats && self.random.once_in(2) {
            true => Kind::Float,
            false => Kind::Int,
        };
        let reach = self.reach(kind, context);
        let longest = *reach.iter().max().expect("length 1 can be reached");
        let start = self.count(kind, longest, context);
        let length = match (longest, context) {
            (1, 1) => self.declared_length(1),
            _ => longest.max(context),
        };
        self.put_type_of_value(kind, length);
        let kept = !(self.wishes.endless && self.random.once_in(3));
        let counter = self.declare(kind, length, kept);
        self.put("=");
        self.put_expression(&start);
        self.put(";");
        if kind == Kind::Float {
            self.part_lanes(&counter, length, context);
        }
        self.put("while (");
        let test = self.counter_test(&counter, kind);
        self.put_expression(&test);
        self.put(") {");
        for _ in 0..self.random.below(3) {
            self.statement(length.max(context), depth + 1);
        }
        self.put(&format!("{counter} = {counter} - {} ;", kind.small(1)));
        if let Some(refills) = refills {
            self.refill(&counter, kind, length, &refills);
        }
        self.put("}");
    }

    /// An expression of at most this length with a small count in each lane; floats have the same
    /// in each.
    fn count(&mut self, kind: Kind, length: usize, context: usize) -> Expression {
        if kind == Kind::Float {
            let count = self.random.below(4);
            return Expression::leaf(kind.small(count));
        }
        let count = self.expression(Kind::Int, length, context, 1);
        let most = Expression::leaf(self.random.between(1, 3).to_string());
        Expression::binary("&", count, most)
    }

    /// Appends a choice that gives some lanes of a float counter another small count.
    fn part_lanes(&mut self, counter: &str, length: usize, context: usize) {
        if !self.reach(Kind::Bool, context).contains(&length) {
            return;
        }
        let condition = self.expression(Kind::Bool, length, context, 1);
        self.put("if (");
        self.put_expression(&condition);
        let count = self.random.below(4);
        self.put(&format!(
            ") {counter} = {} ; else ;",
            Kind::Float.small(count)
        ));
    }

    /// Appends a `scalar` statement that changes lanes of the counter that have left its loop.
    fn refill(&mut self, counter: &str, kind: Kind, length: usize, refills: &str) {
        let reach = self.reach(kind, 1).contains(&length);
        let count = self.count(kind, if reach { length } else { 1 }, 1);
        self.put(&format!("scalar if ( {refills} > 0 ) {{ {counter} ="));
        self.put_expression(&count);
        self.put(&format!("; {refills} = {refills} - 1 ; }} else ;"));
    }

    /// Appends a scalar with a small count, in any context, and gives its name.
    fn scalar_variable(&mut self) -> String {
        self.put("int");
        let name = self.declare(Kind::Int, 1, true);
        let start = self.random.below(4);
        self.put(&format!("; scalar {name} = {start} ;"));
        name
    }

    /// Appends a scalar counter inside a longer context: its loop keeps the mask.
    fn scalar_counter(&mut self, context: usize, depth: usize) {
        let counter = self.scalar_variable();
        self.put("while (");
        let test = self.counter_test(&counter, Kind::Int);
        self.put_expression(&test);
        self.put(") {");
        for _ in 0..self.random.below(3) {
            self.statement(context, depth + 1);
        }
        self.put(&format!("scalar {counter} = {counter} - 1 ; }}"));
    }

    /// A test that holds while the counter, which starts at 0 or above, is not at 0.
    fn counter_test(&mut self, counter: &str, kind: Kind) -> Expression {
        let name = || Expression::leaf(counter);
        let number = |number| Expression::leaf(kind.small(number));
        let test = match self.random.below(5) {
            0 => Expression::binary("<", number(0), name()),
            1 => Expression::binary(">", name(), number(0)),
            2 => Expression::binary(">=", name(), number(1)),
            3 => Expression::binary("!=", number(0), name()),
            _ => Expression::unary("!", Expression::binary("==", name(), number(0))),
        };
        match self.random.below(6) {
            0 => Expression::binary("&", test, Expression::leaf("current_mask")),
            1 => Expression::binary("==", Expression::leaf("current_mask"), test),
            _ => test,
        }
    }

    /// The lengths that an expression of this kind can have in this context; 1 is among them.
    fn reach(&self, kind: Kind, context: usize) -> Vec<usize> {
        let mut lengths = vec![1];
        for variable in &self.open {
            let visible = context == 1 || variable.length == context;
            let leads = variable.kind == kind || kind == Kind::Bool;
            if visible && leads && !lengths.contains(&variable.length) {
                lengths.push(variable.length);
            }
        }
        if kind == Kind::Bool && !lengths.contains(&context) {
            lengths.push(context);
        }
        lengths
    }

    /// An expression of this kind and of exactly this length, which must be in reach.
    fn expression(&mut self, kind: Kind, length: usize, context: usize, fuel: usize) -> Expression {
        if fuel == 0 || self.random.once_in(4) {
            if let Some(leaf) = self.leaf(kind, length, context) {
                return leaf;
            }
        }
        let fuel = fuel.saturating_sub(1);
        match kind {
            Kind::Int => self.int_operator(length, context, fuel),
            Kind::Bool => self.bool_operator(length, context, fuel),
            Kind::Float => self.float_operator(length, context, fuel),
        }
    }

    /// An int operator with its operands.
    fn int_operator(&mut self, length: usize, context: usize, fuel: usize) -> Expression {
        let sign = *self
            .random
            .pick(&["+", "-", "*", "&", "|", "^", "+", "-", "u-", "~"]);
        match sign {
            "u-" => Expression::unary("-", self.expression(Kind::Int, length, context, fuel)),
            "~" => Expression::unary("~", self.expression(Kind::Int, length, context, fuel)),
            _ => self.binary(sign, Kind::Int, length, context, fuel),
        }
    }

    /// A float operator with its operands.
    fn float_operator(&mut self, length: usize, context: usize, fuel: usize) -> Expression {
        match self.random.token(&["+", "-", "*", "+", "-", "u-"]) {
            "u-" => Expression::unary("-", self.expression(Kind::Float, length, context, fuel)),
            sign => self.binary(sign, Kind::Float, length, context, fuel),
        }
    }

    /// The kinds of numbers that can have this length here.
    fn numbers(&self, length: usize, context: usize) -> Vec<Kind> {
        let mut kinds = vec![Kind::Int];
        kinds.extend(self.wishes.floats.then_some(Kind::Float));
        kinds.retain(|kind| self.reach(*kind, context).contains(&length));
        kinds
    }

    /// A bool operator with its operands; only where no numbers can have the length are all bools.
    fn bool_operator(&mut self, length: usize, context: usize, fuel: usize) -> Expression {
        let numbers = self.numbers(length, context);
        let any = !numbers.is_empty();
        let only_numbers = any && self.leaf(Kind::Bool, length, context).is_none();
        if any && (only_numbers || self.random.once_in(2)) {
            let kind = *self.random.pick(&numbers);
            let sign = self.random.token(&["==", "!=", "<", ">", "<=", ">="]);
            return self.binary(sign, kind, length, context, fuel);
        }
        let sign = self.random.token(&["==", "!=", "&", "|", "^", "!"]);
        match sign {
            "!" => Expression::unary("!", self.expression(Kind::Bool, length, context, fuel)),
            _ => self.binary(sign, Kind::Bool, length, context, fuel),
        }
    }

    /// A binary operator whose operands have this length, or one of them length 1.
    fn binary(
        &mut self,
        sign: &'static str,
        operands: Kind,
        length: usize,
        context: usize,
        fuel: usize,
    ) -> Expression {
        let (left, right) = *self
            .random
            .pick(&[(length, length), (length, 1), (1, length)]);
        let left = self.expression(operands, left, context, fuel);
        let right = self.expression(operands, right, context, fuel);
        Expression::binary(sign, left, right)
    }

    /// A name, constant or current_mask of this kind and length, if there is one.
    fn leaf(&mut self, kind: Kind, length: usize, context: usize) -> Option<Expression> {
        let fits = |variable: &&Variable| variable.kind == kind && variable.length == length;
        let names = self.open.iter().filter(fits);
        let mut leaves: Vec<String> = names.map(|variable| variable.name.clone()).collect();
        if kind == Kind::Bool && length == context {
            let times = if context > 1 { 2 } else { 1 };
            leaves.extend(vec!["current_mask".into(); times]);
        }
        if length == 1 {
            leaves.push(self.constant(kind));
        }
        match leaves.is_empty() {
            true => None,
            false => Some(Expression::leaf(self.random.pick(&leaves).clone())),
        }
    }

    /// A constant of this kind.
    fn constant(&mut self, kind: Kind) -> String {
        match kind {
            Kind::Bool => return self.random.token(&["true", "false"]).into(),
            Kind::Float => return singles::constant(self.random),
            Kind::Int => {}
        }
        let edges = [2147483647, 2147483646, 1073741824, 65536, 65535, 256, 255];
        match self.random.below(5) {
            0 => self.random.pick(&edges).to_string(),
            1 => self.random.below(1 << 31).to_string(),
            _ => self.random.below(20).to_string(),
        }
    }
}
