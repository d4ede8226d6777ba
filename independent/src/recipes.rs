//! Recipes written as nested calls, their layout as tables, and the named runs A to P.

use crate::table::{
    ASSIGN, BINARY, CONSTANT, IF, OUTPUT, ROW_WORDS, SEQUENCE, SKIP, VARIABLE, WHILE,
};
use crate::tree::SETTLED;

pub const SUM: u32 = 0;
pub const DIFFERENCE: u32 = 1;
pub const EQUAL: u32 = 4;

/// A word to be laid out: a number, or a row with its kind and its words.
#[derive(Clone)]
pub enum Part {
    Number(u32),
    Row(u32, Vec<Part>),
}

pub fn skip() -> Part {
    Part::Row(SKIP, vec![])
}

pub fn assign(variable: u32, expression: Part) -> Part {
    Part::Row(ASSIGN, vec![Part::Number(variable), expression])
}

pub fn sequence(first: Part, second: Part) -> Part {
    Part::Row(SEQUENCE, vec![first, second])
}

pub fn if_else(test: Part, then: Part, otherwise: Part) -> Part {
    Part::Row(IF, vec![test, then, otherwise])
}

pub fn while_do(test: Part, body: Part) -> Part {
    Part::Row(WHILE, vec![test, body])
}

pub fn output(channel: u32, expression: Part) -> Part {
    Part::Row(OUTPUT, vec![Part::Number(channel), expression])
}

pub fn constant(value: u32) -> Part {
    Part::Row(CONSTANT, vec![Part::Number(value)])
}

pub fn variable(variable: u32) -> Part {
    Part::Row(VARIABLE, vec![Part::Number(variable)])
}

pub fn binary(operator: u32, left: Part, right: Part) -> Part {
    Part::Row(BINARY, vec![Part::Number(operator), left, right])
}

/// Statements one after the other, leaning to the right: one; (two; (three; ...)).
pub fn all<const N: usize>(statements: [Part; N]) -> Part {
    all_right(statements.into())
}

/// The same, for any number of statements.
pub fn all_right(statements: Vec<Part>) -> Part {
    let joined = statements.into_iter().rev();
    joined
        .reduce(|rest, first| sequence(first, rest))
        .unwrap_or_else(skip)
}

/// The same, leaning to the left: ((one; two); three) ...
pub fn all_left(statements: Vec<Part>) -> Part {
    let joined = statements.into_iter().reduce(sequence);
    joined.unwrap_or_else(skip)
}

/// Lays a recipe out as table words, leaves first, each row's children in their order.
pub fn lay(part: &Part) -> Vec<u32> {
    let mut words = Vec::new();
    place(part, false, &mut words);
    words
}

/// The same recipe in another order of rows: later children are laid before earlier ones.
pub fn lay_backward(part: &Part) -> Vec<u32> {
    let mut words = Vec::new();
    place(part, true, &mut words);
    words
}

/// Appends the part's rows; answers the word that stands for the part in its parent's row.
fn place(part: &Part, backward: bool, words: &mut Vec<u32>) -> u32 {
    let (kind, parts) = match part {
        Part::Number(number) => return *number,
        Part::Row(kind, parts) => (*kind, parts),
    };
    let mut row = [0; ROW_WORDS];
    row[0] = kind;
    for i in 0..parts.len() {
        let i = if backward { parts.len() - 1 - i } else { i };
        row[i + 1] = place(&parts[i], backward, words);
    }
    words.extend(row);
    (words.len() / ROW_WORDS - 1) as u32
}

/// The recipes A to I and L to P, by their letters.
pub fn lettered() -> [(&'static str, Part); 14] {
    [
        ("a", a()),
        ("b", b()),
        ("c", c()),
        ("d", d()),
        ("e", e()),
        ("f", f()),
        ("g", g()),
        ("h", h()),
        ("i", i()),
        ("l", l()),
        ("m", m()),
        ("n", n()),
        ("o", o()),
        ("p", p()),
    ]
}

/// "A. v2:=1; v1:=0; if v0 then v1:=1 else skip; if v1=0 then v2:=0 else skip;
/// output settled v2."
pub fn a() -> Part {
    all([
        assign(2, constant(1)),
        assign(1, constant(0)),
        if_else(variable(0), assign(1, constant(1)), skip()),
        if_else(
            binary(EQUAL, variable(1), constant(0)),
            assign(2, constant(0)),
            skip(),
        ),
        output(SETTLED, variable(2)),
    ])
}

/// "B. output settled v0 - v0"
pub fn b() -> Part {
    output(SETTLED, binary(DIFFERENCE, variable(0), variable(0)))
}

/// "C. v0:=0; if v0 then v1:=1 else skip; output settled v1"
pub fn c() -> Part {
    all([
        assign(0, constant(0)),
        if_else(variable(0), assign(1, constant(1)), skip()),
        output(SETTLED, variable(1)),
    ])
}

/// "D. skip"
pub fn d() -> Part {
    skip()
}

/// "E. while v0 do v0:=v0 - 1"
pub fn e() -> Part {
    while_do(variable(0), less_one(0))
}

/// "F. while v0 do v1:=1"
pub fn f() -> Part {
    while_do(variable(0), assign(1, constant(1)))
}

/// "G. if v0 then output settled 5 else skip"
pub fn g() -> Part {
    if_else(variable(0), i(), skip())
}

/// "H. v1:=1; if v1=0 then output settled v0 else skip"
pub fn h() -> Part {
    sequence(
        assign(1, constant(1)),
        if_else(
            binary(EQUAL, variable(1), constant(0)),
            output(SETTLED, variable(0)),
            skip(),
        ),
    )
}

/// "I. output settled 5"
pub fn i() -> Part {
    output(SETTLED, constant(5))
}

/// "L: v1:=0; if v0 then (if v2 then v1:=1 else skip) else skip; output settled v1"
pub fn l() -> Part {
    let inner = if_else(variable(2), assign(1, constant(1)), skip());
    all([
        assign(1, constant(0)),
        if_else(variable(0), inner, skip()),
        output(SETTLED, variable(1)),
    ])
}

/// "M: if v0 then (if v2 then v1:=1 else skip; output settled 5) else v3:=1"
pub fn m() -> Part {
    let inner = if_else(variable(2), assign(1, constant(1)), skip());
    if_else(variable(0), sequence(inner, i()), assign(3, constant(1)))
}

/// "N: while v0 do (output settled 5; v0:=v0-1)"
pub fn n() -> Part {
    while_do(variable(0), sequence(i(), less_one(0)))
}

/// "O: if v0 then skip else (v2:=1; while v3 do if v4 then skip else v1:=1)"
pub fn o() -> Part {
    let inner = if_else(variable(4), skip(), assign(1, constant(1)));
    let not_taken = sequence(assign(2, constant(1)), while_do(variable(3), inner));
    if_else(variable(0), skip(), not_taken)
}

/// "P (check only): while v2 do (output settled v1; v1:=v0)"
pub fn p() -> Part {
    let body = sequence(output(SETTLED, variable(1)), assign(1, variable(0)));
    while_do(variable(2), body)
}

/// v := v - 1
pub fn less_one(counter: u32) -> Part {
    assign(counter, binary(DIFFERENCE, variable(counter), constant(1)))
}

/// A recipe of this many rows, at least 2: skips, and an assignment where the number is even.
pub fn of_rows(rows: usize) -> Part {
    let mut statements = vec![skip(); rows.div_ceil(2)];
    if rows.is_multiple_of(2) {
        statements[0] = assign(0, constant(1));
    }
    all_left(statements)
}

/// The sum of these variables, at least one, no taller than it must be.
pub fn sum_of(variables: &[u32]) -> Part {
    if let [alone] = variables {
        return variable(*alone);
    }
    let (left, right) = variables.split_at(variables.len() / 2);
    binary(SUM, sum_of(left), sum_of(right))
}

/// An expression of this height, taller on the left.
pub fn tall_left(height: u32) -> Part {
    (1..height).fold(variable(0), |tall, _| binary(SUM, tall, constant(1)))
}

/// An expression of this height, taller on the right.
pub fn tall_right(height: u32) -> Part {
    (1..height).fold(variable(0), |tall, _| binary(SUM, constant(1), tall))
}

/// Ifs nested in the branch that is taken when the test holds.
pub fn nested_then(nesting: u32, inmost: Part) -> Part {
    (0..nesting).fold(inmost, |inner, _| if_else(variable(0), inner, skip()))
}

/// Ifs nested in the other branch.
pub fn nested_else(nesting: u32, inmost: Part) -> Part {
    (0..nesting).fold(inmost, |inner, _| if_else(variable(0), skip(), inner))
}

pub fn nested_while(nesting: u32, inmost: Part) -> Part {
    (0..nesting).fold(inmost, |inner, _| while_do(variable(0), inner))
}
