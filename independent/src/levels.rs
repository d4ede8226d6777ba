//! The level check: a recipe passes, or fails at its lowest failing row.

use crate::marks::{from_bits, to_bits, united, within, Marks, VARIABLES};
use crate::table::{judge, Refusal};
use crate::tree::{Statement, SETTLED};

/// How the least mark set of a loop is found.
#[derive(Clone, Copy, Debug, PartialEq, Eq)]
pub enum Method {
    /// Every candidate set is tried, smaller ones before those that contain them.
    Search,
    /// The set grows by the body's result until it contains it.
    Rounds,
    /// Search where the candidates are few, rounds elsewhere.
    BySize,
}

/// Loops nest three deep, and each tries its candidates anew for each candidate outside:
/// with this many free variables that is still quick.
const MOST_SEARCHED: usize = 4;

#[derive(Clone, Copy, Debug, PartialEq, Eq)]
pub enum Outcome {
    Refused(Refusal),
    Pass,
    Fail { row: u32 },
}

/// "The answer is pass, or fail with the lowest failing row, and the final marks in
/// either case." "The level check can meet 1 to 5; it then returns its marks as given."
pub fn levels(words: &[u32], marks: u32) -> (Outcome, u32) {
    levels_by(Method::BySize, words, marks)
}

pub fn levels_by(method: Method, words: &[u32], marks: u32) -> (Outcome, u32) {
    let recipe = match judge(words) {
        Ok(recipe) => recipe,
        Err(refusal) => return (Outcome::Refused(refusal), marks),
    };
    // "Start with a mark set and a settled context."
    let checked = check(method, &recipe, &from_bits(marks), false);
    let outcome = match checked.failing {
        None => Outcome::Pass,
        Some(row) => Outcome::Fail { row },
    };
    (outcome, to_bits(&checked.marks))
}

/// The marks after a statement, and the lowest row in it that fails.
struct Checked {
    marks: Marks,
    failing: Option<u32>,
}

fn lowest(one: Option<u32>, other: Option<u32>) -> Option<u32> {
    one.into_iter().chain(other).min()
}

fn check(method: Method, statement: &Statement, marks: &Marks, context: bool) -> Checked {
    let mut after = Checked {
        marks: *marks,
        failing: None,
    };
    match statement {
        Statement::Skip => {}
        // "Assign marks its variable if expression or context is provisional, else unmarks it."
        Statement::Assign(variable, expression) => {
            after.marks[*variable] = context || expression.provisional(marks);
        }
        Statement::Sequence(first, second) => {
            let one = check(method, first, marks, context);
            let two = check(method, second, &one.marks, context);
            after.marks = two.marks;
            after.failing = lowest(one.failing, two.failing);
        }
        // "both branches start alike, their context provisional if test or outer context
        // is; the results are united"
        Statement::If(test, then, otherwise) => {
            let inside = context || test.provisional(marks);
            let one = check(method, then, marks, inside);
            let two = check(method, otherwise, marks, inside);
            after.marks = united(&one.marks, &two.marks);
            after.failing = lowest(one.failing, two.failing);
        }
        // "its context provisional if the outer one is or the test is under that same set;
        // this is the result"; "inside loops the final sets count"
        Statement::While(test, body) => {
            let turn = |marks: &Marks| {
                let inside = context || test.provisional(marks);
                check(method, body, marks, inside)
            };
            after.marks = least(method, marks, &body.may_assign(), &|set| turn(set).marks);
            after.failing = turn(&after.marks).failing;
        }
        // "fails if it is on channel 0 and its expression or context is provisional"
        Statement::Output(channel, expression, row) => {
            let provisional = context || expression.provisional(marks);
            after.failing = (*channel == SETTLED && provisional).then_some(*row);
        }
    }
    after
}

/// The result of a loop's body started from a set.
type Turn<'a> = dyn Fn(&Marks) -> Marks + 'a;

/// "the least mark set that contains the incoming one and the result of the body started
/// from it": only variables that the body assigns can be added to the incoming ones.
fn least(method: Method, incoming: &Marks, assigned: &Marks, turn: &Turn) -> Marks {
    let free: Vec<usize> = (0..VARIABLES)
        .filter(|variable| assigned[*variable] && !incoming[*variable])
        .collect();
    match method {
        Method::Search => search(incoming, &free, turn),
        Method::Rounds => rounds(incoming, turn),
        Method::BySize if free.len() > MOST_SEARCHED => rounds(incoming, turn),
        Method::BySize => search(incoming, &free, turn),
    }
}

/// Candidates in the order of their binary numbers: a set's parts come before it, so the
/// first that fits is the least. The last one, with every free variable, fits.
fn search(incoming: &Marks, free: &[usize], turn: &Turn) -> Marks {
    let last = (1u64 << free.len()) - 1;
    (0..last)
        .map(|chosen| candidate(incoming, free, chosen))
        .find(|marks| within(&turn(marks), marks))
        .unwrap_or_else(|| candidate(incoming, free, last))
}

fn candidate(incoming: &Marks, free: &[usize], chosen: u64) -> Marks {
    let mut marks = *incoming;
    for (i, variable) in free.iter().enumerate() {
        marks[*variable] = chosen >> i & 1 == 1;
    }
    marks
}

/// Every set that contains the incoming one and its body's result also contains each
/// round's set, so the round that adds nothing gives the least.
fn rounds(incoming: &Marks, turn: &Turn) -> Marks {
    let mut marks = *incoming;
    loop {
        let grown = united(&marks, &turn(&marks));
        if grown == marks {
            return marks;
        }
        marks = grown;
    }
}
