//! The grammar as a table for a machine that looks one word ahead: what a goal becomes when it
//! is next and this word is.

use super::words::Class;
use crate::table::{ASSIGN, BINARY, CONSTANT, IF, OUTPUT, SEQUENCE, SKIP, VARIABLE, WHILE};

use Symbol::{Exchange, Row, Value, Word};

/// A part of a recipe that is still to be read.
#[derive(Clone, Copy, Debug, PartialEq, Eq)]
pub enum Goal {
    Declarations,
    /// What may stand after a declared variable.
    Level,
    Block,
    /// What may stand after a statement of a block.
    Rest,
    Statement,
    Expression,
    Operator,
}

/// What the machine's stack holds.
#[derive(Clone, Copy, Debug, PartialEq, Eq)]
pub enum Symbol {
    Goal(Goal),
    /// A word that has to come.
    Word(Class),
    /// The same, and its number is kept for a row.
    Value(Class),
    /// A row of this kind is complete: its words are the numbers that were kept last.
    Row(u32),
    /// The two numbers that were kept last change places.
    Exchange,
}

/// What a recipe is: any number of declarations, then a block.
pub const RECIPE: [Symbol; 2] = [Symbol::Goal(Goal::Declarations), Symbol::Goal(Goal::Block)];

const DECLARATION: &[Symbol] = &[
    Word(Class::In),
    Word(Class::Variable),
    Symbol::Goal(Goal::Level),
    Word(Class::Semicolon),
    Symbol::Goal(Goal::Declarations),
];
const BLOCK: &[Symbol] = &[Symbol::Goal(Goal::Statement), Symbol::Goal(Goal::Rest)];
/// "a block's sequence rows come after its statements, grouped to the right"
const REST: &[Symbol] = &[
    Word(Class::Semicolon),
    Symbol::Goal(Goal::Statement),
    Symbol::Goal(Goal::Rest),
    Row(SEQUENCE),
];
const SKIPPED: &[Symbol] = &[Word(Class::Skip), Row(SKIP)];
const ASSIGNMENT: &[Symbol] = &[
    Word(Class::Set),
    Value(Class::Variable),
    Word(Class::Equal),
    Symbol::Goal(Goal::Expression),
    Row(ASSIGN),
];
const BRANCHES: &[Symbol] = &[
    Word(Class::If),
    Symbol::Goal(Goal::Expression),
    Word(Class::Then),
    Symbol::Goal(Goal::Block),
    Word(Class::Else),
    Symbol::Goal(Goal::Block),
    Word(Class::End),
    Row(IF),
];
const LOOP: &[Symbol] = &[
    Word(Class::While),
    Symbol::Goal(Goal::Expression),
    Word(Class::Do),
    Symbol::Goal(Goal::Block),
    Word(Class::End),
    Row(WHILE),
];
const SETTLED_OUTPUT: &[Symbol] = &[
    Value(Class::Settled),
    Symbol::Goal(Goal::Expression),
    Row(OUTPUT),
];
const PROVISIONAL_OUTPUT: &[Symbol] = &[
    Value(Class::Provisional),
    Symbol::Goal(Goal::Expression),
    Row(OUTPUT),
];
const NUMBER: &[Symbol] = &[Value(Class::Number), Row(CONSTANT)];
const READ_VARIABLE: &[Symbol] = &[Value(Class::Variable), Row(VARIABLE)];
/// A row names the operator before its sides; the text has it between them.
const OPERATION: &[Symbol] = &[
    Word(Class::Open),
    Symbol::Goal(Goal::Expression),
    Symbol::Goal(Goal::Operator),
    Exchange,
    Symbol::Goal(Goal::Expression),
    Word(Class::Close),
    Row(BINARY),
];

/// What stands for the goal; none where nothing that the goal is begins with the word. A goal
/// that may be empty is so at every word that does not begin it: what comes after the goal
/// then meets the same word.
pub fn rule(goal: Goal, next: Option<Class>) -> Option<&'static [Symbol]> {
    match (goal, next) {
        (Goal::Declarations, Some(Class::In)) => Some(DECLARATION),
        (Goal::Declarations, _) => Some(&[]),
        (Goal::Level, Some(Class::Settled)) => Some(&[Word(Class::Settled)]),
        (Goal::Level, Some(Class::Provisional)) => Some(&[Word(Class::Provisional)]),
        (Goal::Level, _) => Some(&[]),
        (Goal::Block, _) => Some(BLOCK),
        (Goal::Rest, Some(Class::Semicolon)) => Some(REST),
        (Goal::Rest, _) => Some(&[]),
        (Goal::Statement, Some(Class::Skip)) => Some(SKIPPED),
        (Goal::Statement, Some(Class::Set)) => Some(ASSIGNMENT),
        (Goal::Statement, Some(Class::If)) => Some(BRANCHES),
        (Goal::Statement, Some(Class::While)) => Some(LOOP),
        (Goal::Statement, Some(Class::Settled)) => Some(SETTLED_OUTPUT),
        (Goal::Statement, Some(Class::Provisional)) => Some(PROVISIONAL_OUTPUT),
        (Goal::Expression, Some(Class::Number)) => Some(NUMBER),
        (Goal::Expression, Some(Class::Variable)) => Some(READ_VARIABLE),
        (Goal::Expression, Some(Class::Open)) => Some(OPERATION),
        (Goal::Operator, Some(Class::Operator)) => Some(&[Value(Class::Operator)]),
        (Goal::Operator, Some(Class::Equal)) => Some(&[Value(Class::Equal)]),
        (Goal::Statement | Goal::Expression | Goal::Operator, _) => None,
    }
}
