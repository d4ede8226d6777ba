//! The trees that an accepted table stands for, and what the rules ask of them.

use crate::marks::{only, shared, united, Marks, EMPTY, VARIABLES};

/// "carried with the run as a fixed set of 32 numbers"
pub type Memory = [u32; VARIABLES];

/// "channel: 0 settled, 1 provisional"
pub const SETTLED: u32 = 0;
pub const PROVISIONAL: u32 = 1;

/// "Values and table words are 32-bit unsigned."
const MODULUS: u64 = 1 << 32;

pub enum Operator {
    Sum,
    Difference,
    Product,
    Quotient,
    Equal,
    Less,
}

impl Operator {
    /// "Operators: 0 sum, 1 difference, 2 product, 3 whole quotient, 4 equal, 5 less"
    pub fn numbered(number: u32) -> Option<Operator> {
        match number {
            0 => Some(Operator::Sum),
            1 => Some(Operator::Difference),
            2 => Some(Operator::Product),
            3 => Some(Operator::Quotient),
            4 => Some(Operator::Equal),
            5 => Some(Operator::Less),
            _ => None,
        }
    }

    /// "all modulo 2^32"; "A quotient by 0 is now 4,294,967,295."; "both give 1 or 0"
    pub fn value(&self, left: u32, right: u32) -> u32 {
        let (left, right) = (u64::from(left), u64::from(right));
        let value = match self {
            Operator::Sum => left + right,
            Operator::Difference => MODULUS + left - right,
            Operator::Product => left * right,
            Operator::Quotient if right == 0 => 4_294_967_295,
            Operator::Quotient => left / right,
            Operator::Equal => u64::from(left == right),
            Operator::Less => u64::from(left < right),
        };
        (value % MODULUS) as u32
    }
}

pub enum Expression {
    Constant(u32),
    Variable(usize),
    Binary(Operator, Box<Expression>, Box<Expression>),
}

impl Expression {
    pub fn value(&self, memory: &Memory) -> u32 {
        match self {
            Expression::Constant(value) => *value,
            Expression::Variable(variable) => memory[*variable],
            Expression::Binary(operator, left, right) => {
                operator.value(left.value(memory), right.value(memory))
            }
        }
    }

    /// The dividends of all quotients by 0 that its value is made of.
    pub fn divided_by_zero(&self, memory: &Memory) -> Vec<u32> {
        let Expression::Binary(operator, left, right) = self else {
            return Vec::new();
        };
        let mut dividends = left.divided_by_zero(memory);
        dividends.extend(right.divided_by_zero(memory));
        if matches!(operator, Operator::Quotient) && right.value(memory) == 0 {
            dividends.push(left.value(memory));
        }
        dividends
    }

    /// "A test holds when its value is not 0."
    pub fn holds(&self, memory: &Memory) -> bool {
        self.value(memory) != 0
    }

    /// Every variable that is read in it, marked or not.
    fn reads(&self) -> Marks {
        match self {
            Expression::Constant(_) => EMPTY,
            Expression::Variable(variable) => only(*variable),
            Expression::Binary(_, left, right) => united(&left.reads(), &right.reads()),
        }
    }

    /// "An expression's level is now the set of marked variables that it reads"
    pub fn level(&self, marks: &Marks) -> Marks {
        shared(&self.reads(), marks)
    }

    /// "provisional when not empty": "when some variable read in it is marked"
    pub fn provisional(&self, marks: &Marks) -> bool {
        self.level(marks) != EMPTY
    }
}

/// The statements, with what the words of their rows stand for.
pub enum Statement {
    Skip,
    /// Variable, expression.
    Assign(usize, Expression),
    /// First, second.
    Sequence(Box<Statement>, Box<Statement>),
    /// Test, then, else.
    If(Expression, Box<Statement>, Box<Statement>),
    /// Test, body.
    While(Expression, Box<Statement>),
    /// Channel, expression; and the row, which is the place of a run that stops here.
    Output(u32, Expression, u32),
}

impl Statement {
    /// "every variable that stands on the left of an assignment anywhere in the statement"
    pub fn may_assign(&self) -> Marks {
        match self {
            Statement::Skip | Statement::Output(..) => EMPTY,
            Statement::Assign(variable, _) => only(*variable),
            Statement::Sequence(one, other) | Statement::If(_, one, other) => {
                united(&one.may_assign(), &other.may_assign())
            }
            Statement::While(_, body) => body.may_assign(),
        }
    }
}
