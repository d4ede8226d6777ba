//! What stands at one row: its words, its value and level as an expression, and what it may
//! assign as a statement. These are gathered from the rows below it, without a tree.

use std::collections::BTreeMap;

use crate::marks::{from_bits, shared, to_bits, Marks, EMPTY};
use crate::table::{
    children, judge, sort, whole_rows, Refusal, Row, Word, ASSIGN, BINARY, CONSTANT, VARIABLE,
};
use crate::tree::{Memory, Operator};

/// An expression's value, and its level: the marked variables that are read in it.
#[derive(Clone, Copy, Debug, PartialEq, Eq)]
pub struct Valued {
    pub value: u32,
    pub level: u32,
}

/// The row of this number; none where the table does not have it.
pub fn row_at(words: &[u32], at: u32) -> Option<Row> {
    whole_rows(words).get(at as usize).copied()
}

/// A row that is no expression, or is not there, has the value and level of the constant 0.
pub fn value_at(words: &[u32], at: u32, memory: &Memory, marks: u32) -> Result<Valued, Refusal> {
    judge(words)?;
    let expression = row_at(words, at).is_some_and(|row| sort(&row) == Word::Expression);
    if !expression {
        return Ok(Valued { value: 0, level: 0 });
    }
    let below = rows_below(words, at);
    let level = shared(&named(&below, VARIABLE), &from_bits(marks));
    Ok(Valued {
        value: values(&below, memory)[&at],
        level: to_bits(&level),
    })
}

/// "every variable that stands on the left of an assignment anywhere in the statement"; in a
/// row that is no statement, or is not there, stands none.
pub fn assigned_at(words: &[u32], at: u32) -> Result<u32, Refusal> {
    judge(words)?;
    Ok(to_bits(&named(&rows_below(words, at), ASSIGN)))
}

/// The row, where it is there, and all that stand below it, by their numbers.
fn rows_below(words: &[u32], top: u32) -> BTreeMap<u32, Row> {
    let mut below = BTreeMap::new();
    let mut wanted = vec![top];
    while let Some(at) = wanted.pop() {
        if let Some(row) = row_at(words, at) {
            below.insert(at, row);
            wanted.extend(children(&row).iter().map(|(_, child)| *child as u32));
        }
    }
    below
}

/// The values of rows, in the order of their numbers: "leaves first".
fn values(rows: &BTreeMap<u32, Row>, memory: &Memory) -> BTreeMap<u32, u32> {
    let mut values = BTreeMap::new();
    for (at, [kind, p, q, r]) in rows {
        let value = match (*kind, Operator::numbered(*p)) {
            (CONSTANT, _) => *p,
            (BINARY, Some(operator)) => operator.value(values[q], values[r]),
            _ => memory[*p as usize],
        };
        values.insert(*at, value);
    }
    values
}

/// The variables that rows of this kind name.
fn named(rows: &BTreeMap<u32, Row>, kind: u32) -> Marks {
    let mut named = EMPTY;
    for [_, variable, ..] in rows.values().filter(|row| row[0] == kind) {
        named[*variable as usize] = true;
    }
    named
}
