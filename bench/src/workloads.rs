//! The recipes that are timed.

use crate::recipe::{Recipe, DIFFERENCE, LESS, PRODUCT, SUM};

/// A recipe with what it is given, and how often it is run in one measurement.
pub struct Workload {
    pub name: &'static str,
    pub table: Vec<u32>,
    pub marks: u32,
    pub budget: u32,
    pub trace_words: usize,
    pub times: u32,
}

/// v0 is the counter of every loop, v1 a provisional variable where a recipe has one.
const COUNTER: u32 = 0;
const PROVISIONAL: u32 = 1;

const STEPS: u32 = 60_000;

/// As many assignments as 512 rows hold.
const LONGEST: u32 = 171;

fn long(name: &'static str, table: Vec<u32>, marks: u32) -> Workload {
    Workload {
        name,
        table,
        marks,
        budget: STEPS,
        trace_words: 0,
        times: 1,
    }
}

fn counting() -> Vec<u32> {
    let mut r = Recipe::default();
    let test = r.below_the_end(COUNTER);
    let body = r.count_up(COUNTER);
    r.repeat(test, body);
    r.table()
}

/// A loop that assigns an expression to v2 and counts up.
fn evaluating(expression: fn(&mut Recipe) -> u32) -> Vec<u32> {
    let mut r = Recipe::default();
    let test = r.below_the_end(COUNTER);
    let value = expression(&mut r);
    let assign = r.assign(2, value);
    let count = r.count_up(COUNTER);
    let body = r.sequence(assign, count);
    r.repeat(test, body);
    r.table()
}

/// Fifteen operators in a row, each with a variable on its right: the greatest height.
fn tall(r: &mut Recipe) -> u32 {
    let first = r.variable(COUNTER);
    (0..15).fold(first, |left, i| {
        let right = r.variable(3 + i);
        r.binary([SUM, DIFFERENCE, PRODUCT][i as usize % 3], left, right)
    })
}

/// A full tree of 63 nodes.
fn full(r: &mut Recipe) -> u32 {
    fn tree(r: &mut Recipe, height: u32) -> u32 {
        if height == 1 {
            return r.variable(COUNTER);
        }
        let left = tree(r, height - 1);
        let right = tree(r, height - 1);
        r.binary([SUM, PRODUCT][height as usize % 2], left, right)
    }
    tree(r, 6)
}

/// A loop with an if whose test is `v0 < 1,000`.
fn branching() -> Vec<u32> {
    let mut r = Recipe::default();
    let test = r.below_the_end(COUNTER);
    let left = r.variable(COUNTER);
    let right = r.constant(1000);
    let small = r.binary(LESS, left, right);
    let three = r.constant(3);
    let then = r.assign(2, three);
    let four = r.constant(4);
    let otherwise = r.assign(3, four);
    let branch = r.branch(small, then, otherwise);
    let count = r.count_up(COUNTER);
    let body = r.sequence(branch, count);
    r.repeat(test, body);
    r.table()
}

/// A settled loop with a provisional if, whose branch that is not taken has 100 assignments.
fn untaken() -> Vec<u32> {
    let mut r = Recipe::default();
    let test = r.below_the_end(COUNTER);
    let flag = r.variable(PROVISIONAL);
    let assignments: Vec<u32> = (0..100)
        .map(|i| {
            let value = r.constant(i);
            r.assign(2 + i % 30, value)
        })
        .collect();
    let then = r.all(&assignments);
    let otherwise = r.skip();
    let branch = r.branch(flag, then, otherwise);
    let count = r.count_up(COUNTER);
    let body = r.sequence(branch, count);
    r.repeat(test, body);
    r.table()
}

/// A loop that shows its counter, until there is no room.
fn outputs() -> Vec<u32> {
    let mut r = Recipe::default();
    let test = r.below_the_end(COUNTER);
    let shown = r.variable(COUNTER);
    let output = r.output(0, shown);
    let count = r.count_up(COUNTER);
    let body = r.sequence(output, count);
    r.repeat(test, body);
    r.table()
}

/// Assignments one after the other, three rows each but for the first.
fn sequence(count: u32) -> Vec<u32> {
    let mut r = Recipe::default();
    let assignments: Vec<u32> = (0..count)
        .map(|i| {
            let value = r.constant(i);
            r.assign(i % 32, value)
        })
        .collect();
    r.all(&assignments);
    r.table()
}

/// The whole case of docs/RULES.md: five rows and two steps.
fn short() -> Vec<u32> {
    let mut r = Recipe::default();
    let v0 = r.variable(0);
    let settled = r.output(0, v0);
    let v1 = r.variable(1);
    let provisional = r.output(1, v1);
    r.sequence(settled, provisional);
    r.table()
}

/// Assignments of full trees: 512 rows, nearly all of them expressions.
fn expressions() -> Vec<u32> {
    let mut r = Recipe::default();
    let assignments: Vec<u32> = (0..7)
        .map(|i| {
            let value = full(&mut r);
            r.assign(i, value)
        })
        .collect();
    let trees = r.all(&assignments);
    let skips: Vec<u32> = (0..29).map(|_| r.skip()).collect();
    let all: Vec<u32> = std::iter::once(trees).chain(skips).collect();
    r.all(&all);
    r.table()
}

/// The runs.
pub fn runs() -> Vec<Workload> {
    let provisional = 1 << PROVISIONAL;
    vec![
        long("settled counting loop", counting(), 0),
        long("provisional counting loop", counting(), 1),
        long("height-16 expression, settled", evaluating(tall), 0),
        long("full tree of 63 nodes, settled", evaluating(full), 0),
        long("if in a settled loop", branching(), 0),
        long("if in a provisional loop", branching(), 1),
        long(
            "provisional if, 100 assignments untaken",
            untaken(),
            provisional,
        ),
        Workload {
            name: "8,192 outputs",
            table: outputs(),
            marks: 0,
            budget: STEPS,
            trace_words: 16384,
            times: 2,
        },
        Workload {
            name: "512-row sequence, once",
            table: sequence(LONGEST),
            marks: 0,
            budget: STEPS,
            trace_words: 0,
            times: 100,
        },
        Workload {
            name: "5 rows, two outputs, once",
            table: short(),
            marks: 2,
            budget: 10,
            trace_words: 4,
            times: 4000,
        },
    ]
}

/// Three loops in each other. Each hands v0's mark on by one of its own variables in a round, and a body unmarks the variables
/// of the loop inside it first, so that this is solved again in every round. The innermost body is filled up to 512 rows.
fn rounds() -> Vec<u32> {
    let mut r = Recipe::default();
    let mut inside = Vec::new();
    for own in [21..32, 11..21, 1..11] {
        let test = r.constant(1);
        let mut body: Vec<u32> = own
            .clone()
            .rev()
            .map(|i| {
                let from = r.variable(if i == own.start { 0 } else { i - 1 });
                r.assign(i, from)
            })
            .collect();
        if inside.is_empty() {
            body.extend((0..145).map(|_| r.skip()));
        } else {
            body.extend((own.end..32).map(|i| {
                let zero = r.constant(0);
                r.assign(i, zero)
            }));
        }
        body.append(&mut inside);
        let body = r.all(&body);
        inside = vec![r.repeat(test, body)];
    }
    r.table()
}

/// Jobs that are read, run and reported.
pub fn jobs() -> Vec<Workload> {
    vec![
        Workload {
            name: "job to report, 512 rows",
            table: sequence(LONGEST),
            marks: 0,
            budget: STEPS,
            trace_words: 0,
            times: 10,
        },
        Workload {
            name: "job to report, 8,192 records",
            table: outputs(),
            marks: 0,
            budget: STEPS,
            trace_words: 16384,
            times: 10,
        },
    ]
}

/// The settled counting loop with budgets that grow.
pub fn longer_runs() -> Vec<Workload> {
    [100, 10_000, 100_000]
        .map(|budget| Workload {
            name: "settled counting loop",
            table: counting(),
            marks: 0,
            budget,
            trace_words: 0,
            times: 100_000 / budget,
        })
        .into()
}

/// Tables with rows that grow.
pub fn longer_tables() -> Vec<Vec<u32>> {
    [3, 11, 43, LONGEST].map(sequence).into()
}

/// The tables that are judged.
pub fn judged() -> Vec<(&'static str, Vec<u32>)> {
    vec![
        ("judge 512 rows of assignments", sequence(LONGEST)),
        ("judge 512 rows of expressions", expressions()),
    ]
}

/// The tables whose levels are checked, from v0 marked, and how often in one measurement.
pub fn checked() -> Vec<(&'static str, Vec<u32>, u32)> {
    vec![
        (
            "level check, 512 rows of assignments",
            sequence(LONGEST),
            50,
        ),
        ("level check, 512 rows of expressions", expressions(), 50),
        ("level check, three loops of many rounds", rounds(), 1),
    ]
}
