//! The judge: a table of words is refused by 1 to 5, or becomes a tree.

use crate::marks::VARIABLES;
use crate::tree::{Expression, Operator, Statement, PROVISIONAL};

/// "A row is four words: kind, p, q, r."
pub const ROW_WORDS: usize = 4;
/// "over 512 rows"
pub const MOST_ROWS: usize = 512;
/// "expression height over 16, nesting over 8 or loop nesting over 3"
pub const MOST_HEIGHT: u32 = 16;
pub const MOST_NESTING: u32 = 8;
pub const MOST_LOOP_NESTING: u32 = 3;

/// "Kinds 0 to 5 are statements, 8 to 10 expressions."
pub const SKIP: u32 = 0;
pub const ASSIGN: u32 = 1;
pub const SEQUENCE: u32 = 2;
pub const IF: u32 = 3;
pub const WHILE: u32 = 4;
pub const OUTPUT: u32 = 5;
pub const CONSTANT: u32 = 8;
pub const VARIABLE: u32 = 9;
pub const BINARY: u32 = 10;

/// A number for no, and the row or line that it is given at.
#[derive(Clone, Copy, Debug, PartialEq, Eq)]
pub struct Refusal {
    pub number: u32,
    pub at: u32,
}

pub type Row = [u32; ROW_WORDS];

/// "Which word is a variable, a row or a constant is fixed for each kind."
#[derive(Clone, Copy, PartialEq, Eq)]
pub enum Word {
    Unnamed,
    Value,
    Variable,
    Channel,
    Operator,
    Expression,
    Statement,
}

/// What p, q and r are in a row of this kind; none for an unknown kind.
pub fn words_of(kind: u32) -> Option<[Word; 3]> {
    match kind {
        SKIP => Some([Word::Unnamed, Word::Unnamed, Word::Unnamed]),
        ASSIGN => Some([Word::Variable, Word::Expression, Word::Unnamed]),
        SEQUENCE => Some([Word::Statement, Word::Statement, Word::Unnamed]),
        IF => Some([Word::Expression, Word::Statement, Word::Statement]),
        WHILE => Some([Word::Expression, Word::Statement, Word::Unnamed]),
        OUTPUT => Some([Word::Channel, Word::Expression, Word::Unnamed]),
        CONSTANT => Some([Word::Value, Word::Unnamed, Word::Unnamed]),
        VARIABLE => Some([Word::Variable, Word::Unnamed, Word::Unnamed]),
        BINARY => Some([Word::Operator, Word::Expression, Word::Expression]),
        _ => None,
    }
}

/// "The lowest number from 1 to 6 that applies anywhere is given, with its lowest row."
/// Number 6 is about the trace and stands with the run.
pub fn judge(words: &[u32]) -> Result<Statement, Refusal> {
    let rows = rows(words).ok_or(Refusal { number: 1, at: 0 })?;
    refuse(2, &rows, |at| misnamed(&rows[at]))?;
    refuse(3, &rows, |at| wrong_child(&rows, at))?;
    let uses = uses(&rows);
    refuse(4, &rows, |at| wrong_use(&rows, &uses, at))?;
    let measures = measures(&rows);
    refuse(5, &rows, |at| too_deep(&measures[at]))?;
    Ok(statement(&rows, rows.len() as u32 - 1))
}

/// 1: "word count not a multiple of 4, or 0 rows, or over 512 rows"
fn rows(words: &[u32]) -> Option<Vec<Row>> {
    let count = words.len() / ROW_WORDS;
    if !words.len().is_multiple_of(ROW_WORDS) || count == 0 || count > MOST_ROWS {
        return None;
    }
    Some(whole_rows(words))
}

/// The rows of any table; words after the last whole row make none.
pub fn whole_rows(words: &[u32]) -> Vec<Row> {
    let rows = words.chunks_exact(ROW_WORDS);
    rows.map(|row| [row[0], row[1], row[2], row[3]]).collect()
}

/// Gives the number with the lowest row that it applies at.
fn refuse(number: u32, rows: &[Row], applies: impl Fn(usize) -> bool) -> Result<(), Refusal> {
    match (0..rows.len()).find(|at| applies(*at)) {
        Some(at) => Err(Refusal {
            number,
            at: at as u32,
        }),
        None => Ok(()),
    }
}

/// 2: "unknown kind; named word out of range (variable over 31, channel over 1,
/// operator over 5); unnamed word not 0"
fn misnamed(row: &Row) -> bool {
    let Some(words) = words_of(row[0]) else {
        return true;
    };
    (0..words.len()).any(|i| {
        let number = row[i + 1];
        match words[i] {
            Word::Unnamed => number != 0,
            Word::Variable => number >= VARIABLES as u32,
            Word::Channel => number > PROVISIONAL,
            Word::Operator => Operator::numbered(number).is_none(),
            Word::Value | Word::Expression | Word::Statement => false,
        }
    })
}

/// The sort asked for and the row number, for each child of a row.
pub fn children(row: &Row) -> Vec<(Word, usize)> {
    let words = words_of(row[0]).unwrap_or([Word::Unnamed; 3]);
    (0..words.len())
        .filter(|i| matches!(words[*i], Word::Expression | Word::Statement))
        .map(|i| (words[i], row[i + 1] as usize))
        .collect()
}

pub fn sort(row: &Row) -> Word {
    match row[0] {
        CONSTANT | VARIABLE | BINARY => Word::Expression,
        _ => Word::Statement,
    }
}

/// 3: "a child's number not below its parent's, or a child of the wrong sort"
fn wrong_child(rows: &[Row], parent: usize) -> bool {
    children(&rows[parent])
        .iter()
        .any(|(asked, child)| *child >= parent || sort(&rows[*child]) != *asked)
}

/// In how many places each row is a child.
fn uses(rows: &[Row]) -> Vec<usize> {
    let mut uses = vec![0; rows.len()];
    for (_, child) in rows.iter().flat_map(children) {
        uses[child] += 1;
    }
    uses
}

/// 4: "a row before the last is a child of no row or more than one place; or the last
/// row is an expression"
fn wrong_use(rows: &[Row], uses: &[usize], at: usize) -> bool {
    if at == rows.len() - 1 {
        sort(&rows[at]) == Word::Expression
    } else {
        uses[at] != 1
    }
}

#[derive(Clone, Copy, Default)]
struct Measure {
    height: u32,
    nesting: u32,
    loop_nesting: u32,
}

/// Height and nestings of every row, leaves first: a child is measured before its parent.
fn measures(rows: &[Row]) -> Vec<Measure> {
    let mut measures: Vec<Measure> = Vec::new();
    for row in rows {
        let mut most = Measure::default();
        for (_, child) in children(row) {
            most.height = most.height.max(measures[child].height);
            most.nesting = most.nesting.max(measures[child].nesting);
            most.loop_nesting = most.loop_nesting.max(measures[child].loop_nesting);
        }
        measures.push(measure(row, most));
    }
    measures
}

/// "Height of a constant or variable is 1; of a binary row, 1 more than its taller side."
/// "if and while add 1 to their largest statement child. Loop nesting is counted alike
/// with only while adding 1."
fn measure(row: &Row, most: Measure) -> Measure {
    let expression = sort(row) == Word::Expression;
    Measure {
        height: if expression { most.height + 1 } else { 0 },
        nesting: most.nesting + u32::from(row[0] == IF || row[0] == WHILE),
        loop_nesting: most.loop_nesting + u32::from(row[0] == WHILE),
    }
}

/// 5: "expression height over 16, nesting over 8 or loop nesting over 3"
fn too_deep(measure: &Measure) -> bool {
    measure.height > MOST_HEIGHT
        || measure.nesting > MOST_NESTING
        || measure.loop_nesting > MOST_LOOP_NESTING
}

/// "Rows form a tree, leaves first; the last row is the whole recipe."
fn statement(rows: &[Row], at: u32) -> Statement {
    let [kind, p, q, r] = rows[at as usize];
    let child = |at: u32| Box::new(statement(rows, at));
    match kind {
        ASSIGN => Statement::Assign(p as usize, expression(rows, q)),
        SEQUENCE => Statement::Sequence(child(p), child(q)),
        IF => Statement::If(expression(rows, p), child(q), child(r)),
        WHILE => Statement::While(expression(rows, p), child(q)),
        OUTPUT => Statement::Output(p, expression(rows, q), at),
        _ => Statement::Skip,
    }
}

fn expression(rows: &[Row], at: u32) -> Expression {
    let [kind, p, q, r] = rows[at as usize];
    let child = |at: u32| Box::new(expression(rows, at));
    match (kind, Operator::numbered(p)) {
        (BINARY, Some(operator)) => Expression::Binary(operator, child(q), child(r)),
        (VARIABLE, _) => Expression::Variable(p as usize),
        _ => Expression::Constant(p),
    }
}
