//! The smallest case that still has a difference, found by trying smaller ones.

use buzorinde::READ_WORDS;
use independent::marks::VARIABLES;
use independent::run::RECORD_WORDS;
use independent::table::{Word, CONSTANT, MOST_ROWS, ROW_WORDS, SKIP};

use crate::calls::{by_library, ANSWERED};
use crate::case::{Case, Given, Question};
use crate::pieces::{narrowings, Narrowing};
use crate::tables::Names;
use crate::words::{children, is_child, is_expression, places, without};

/// Nothing but the budget is changed above this: a changed run may be endless.
const MOST_BUDGET: u32 = 1_000_000;

/// One way to make a case smaller.
#[derive(Clone, Copy)]
enum Change {
    Budget {
        run: usize,
        to: u32,
    },
    /// So many words are cut off the table's end.
    Cut(usize),
    /// A child of the same sort takes its parent's place.
    Raise {
        row: usize,
        child: usize,
    },
    /// Skip or the constant 0 takes a row's place.
    Empty(usize),
    /// A row is left out, in a table whose rows are no tree.
    Drop(usize),
    Word {
        at: usize,
        to: u32,
    },
    Trace {
        run: usize,
        to: u32,
    },
    /// In both memories of a pair, which stay equal where they are.
    Memory {
        variable: usize,
        to: u32,
    },
    Unmark(usize),
    Answer(u32),
    Exchange {
        lower: usize,
        variable: usize,
    },
    Text(Narrowing),
}

/// Changes the case while it still differs, until no change does that. After a change the next
/// ones are tried, not the first ones again: a table of 512 rows has thousands.
pub fn smallest(mut case: Case, differs: impl Fn(&Case) -> bool) -> Case {
    let mut tried = 0;
    loop {
        let changes = changes(&case);
        let rest = changes.iter().enumerate().skip(tried);
        let found = rest.filter_map(|(at, change)| {
            let fits = |other: &Case| size(other) < size(&case) && differs(other);
            let other = fitted(changed(&case, *change)).into_iter().find(fits);
            other.map(|other| (at, other))
        });
        match found.into_iter().next() {
            Some((at, other)) => (tried, case) = (at, other),
            None if tried == 0 => return case,
            None => tried = 0,
        }
    }
}

/// What every change makes smaller: first the rows or the text, then all numbers.
fn size(case: &Case) -> (usize, u64) {
    let sum = |words: &[u32]| words.iter().map(|word| u64::from(*word)).sum::<u64>();
    let given = case.givens().into_iter().map(|given| {
        let lent = given.memory.len() + given.trace_words;
        sum(&given.memory) + u64::from(given.budget) + lent as u64
    });
    let numbers = sum(&case.table) + u64::from(case.marks) + case.answer_words as u64;
    let first = match &case.question {
        Question::Read(text) => text.len(),
        _ => case.table.len(),
    };
    (first, numbers + given.sum::<u64>())
}

/// The changes to try, the boldest first.
fn changes(case: &Case) -> Vec<Change> {
    if let Question::Read(text) = &case.question {
        return reading_changes(text, case);
    }
    let mut changes = Vec::new();
    for (run, given) in case.givens().into_iter().enumerate() {
        let budgets = smaller_values(given.budget);
        changes.extend(budgets.map(|to| Change::Budget { run, to }));
    }
    let budgets = case.givens().into_iter().map(|given| given.budget);
    if budgets.max().unwrap_or(0) <= MOST_BUDGET {
        changes.extend(table_changes(&case.table));
        changes.extend(lent_changes(case));
        changes.extend(lower_names(&case.table));
    }
    changes
}

/// Shorter texts, and less that is lent.
fn reading_changes(text: &[u8], case: &Case) -> Vec<Change> {
    let mut changes: Vec<Change> = narrowings(text).into_iter().map(Change::Text).collect();
    changes.extend(cuts(&case.table));
    changes.extend(smaller_values(case.answer_words as u32).map(Change::Answer));
    changes
}

/// Numbers to try in place of one.
fn smaller_values(value: u32) -> impl Iterator<Item = u32> {
    let less = |by| value.saturating_sub(by);
    let values = [0, 1, value / 2, less(2), less(1)];
    values.into_iter().filter(move |other| *other < value)
}

fn cuts(table: &[u32]) -> impl Iterator<Item = Change> + '_ {
    let cuts = [table.len() / 2, ROW_WORDS, 1].into_iter();
    let cuts = cuts.filter(|words| *words <= table.len());
    cuts.map(Change::Cut)
}

fn table_changes(table: &[u32]) -> Vec<Change> {
    let mut changes: Vec<Change> = cuts(table).collect();
    for row in (0..table.len() / ROW_WORDS).rev() {
        let raised = children(table, row).into_iter().filter(|child| {
            *child < row && is_expression(table, *child) == is_expression(table, row)
        });
        changes.extend(raised.map(|child| Change::Raise { row, child }));
        changes.extend([Change::Empty(row), Change::Drop(row)]);
    }
    for (at, word) in table.iter().enumerate() {
        changes.extend(smaller_values(*word).map(|to| Change::Word { at, to }));
    }
    changes
}

/// Traces, memories, marks and the buffer for the answer.
fn lent_changes(case: &Case) -> Vec<Change> {
    let mut changes = Vec::new();
    for (run, given) in case.givens().into_iter().enumerate() {
        let traces = smaller_values(given.trace_words as u32);
        changes.extend(traces.map(|to| Change::Trace { run, to }));
        for (variable, value) in given.memory.iter().enumerate() {
            let values = smaller_values(*value);
            changes.extend(values.map(|to| Change::Memory { variable, to }));
        }
    }
    let marked = (0..VARIABLES).filter(|variable| case.marks >> variable & 1 == 1);
    changes.extend(marked.map(Change::Unmark));
    changes.extend(smaller_values(case.answer_words as u32).map(Change::Answer));
    changes
}

/// Each variable of the table under the name of a lower one, in marks and memories too.
fn lower_names(table: &[u32]) -> Vec<Change> {
    let used = places(table, |role| role == Word::Variable).into_iter();
    let used = used.map(|place| table[place] as usize);
    let used = used.filter(|variable| *variable < VARIABLES);
    let lower = |variable| (0..variable).map(move |lower| Change::Exchange { lower, variable });
    used.flat_map(lower).collect()
}

fn changed(case: &Case, change: Change) -> Case {
    let mut other = case.clone();
    let table = &case.table;
    match change {
        Change::Budget { run, to } => other.givens_mut()[run].budget = to,
        Change::Cut(words) => other.table.truncate(table.len() - words),
        Change::Raise { row, child } => other.table = raised(table, row, child),
        Change::Empty(row) => other.table = emptied(table, row),
        Change::Drop(row) => other.table = dropped(table, row),
        Change::Word { at, to } => other.table[at] = to,
        Change::Trace { run, to } => other.givens_mut()[run].trace_words = to as usize,
        Change::Memory { variable, to } => {
            for given in other.givens_mut() {
                given.memory[variable] = given.memory[variable].min(to);
            }
        }
        Change::Unmark(variable) => other.marks &= !(1 << variable),
        Change::Answer(words) => other.answer_words = words as usize,
        Change::Exchange { lower, variable } => {
            let names = Names::exchanged(lower, variable);
            names.of_table(&mut other.table);
            other.marks = names.of_marks(case.marks);
            for given in other.givens_mut() {
                names.of_memory(&mut given.memory);
            }
        }
        Change::Text(narrowing) => {
            if let Question::Read(text) = &mut other.question {
                *text = narrowing.of(text);
            }
        }
    }
    other
}

/// The case, and the same with no more lent than it takes: a difference at a run's very end, or
/// at that of a table, is lost where a run or a text is shorter and what is lent is not.
fn fitted(case: Case) -> Vec<Case> {
    let others = match &case.question {
        Question::Run(given) => fitted_run(&case, given),
        Question::Read(_) => fitted_reading(&case),
        _ => vec![],
    };
    [vec![case], others].concat()
}

/// With the budget, or the words of the trace, that the run takes.
fn fitted_run(case: &Case, given: &Given) -> Vec<Case> {
    // A run that the highest budgets allow may be endless once it is changed.
    if given.budget > MOST_BUDGET {
        return vec![];
    }
    let left = by_library(case);
    if left.status != ANSWERED || left.refusal() != 0 {
        return vec![];
    }
    let end = left.end();
    let odd = given.trace_words % RECORD_WORDS;
    let (mut budget, mut trace) = (case.clone(), case.clone());
    for given in budget.givens_mut() {
        given.budget = end.steps;
    }
    for given in trace.givens_mut() {
        given.trace_words = given.trace_words.min(end.filled + odd);
    }
    vec![budget, trace]
}

/// With a table of the words that the rows take, or of one less.
fn fitted_reading(case: &Case) -> Vec<Case> {
    let mut roomy = case.clone();
    roomy.table.resize(MOST_ROWS * ROW_WORDS, 0);
    roomy.answer_words = READ_WORDS;
    let words = by_library(&roomy).rows() * ROW_WORDS;
    let lengths = [words, words.saturating_sub(1)].into_iter();
    let with_length = |length| {
        let mut other = case.clone();
        other.table.truncate(length);
        other
    };
    lengths.map(with_length).collect()
}

/// Which rows stand below a row, itself among them.
fn subtree(table: &[u32], row: usize) -> Vec<bool> {
    let mut within = vec![false; table.len() / ROW_WORDS];
    within[row] = true;
    // A child stands below its parent, so that going down meets each parent first.
    for parent in (0..=row).rev() {
        for child in children(table, parent) {
            if within[parent] && child < parent {
                within[child] = true;
            }
        }
    }
    within
}

/// The table with one of a row's children in the row's place.
fn raised(table: &[u32], row: usize, child: usize) -> Vec<u32> {
    let mut other = table.to_vec();
    for place in places(table, is_child) {
        if other[place] as usize == row {
            other[place] = child as u32;
        }
    }
    let mut gone = subtree(table, row);
    for (gone, kept) in gone.iter_mut().zip(subtree(table, child)) {
        *gone &= !kept;
    }
    without(&other, &gone)
}

/// The table with skip or the constant 0 in a row's place.
fn emptied(table: &[u32], row: usize) -> Vec<u32> {
    let kind = if is_expression(table, row) {
        CONSTANT
    } else {
        SKIP
    };
    let mut gone = subtree(table, row);
    gone[row] = false;
    let mut other = table.to_vec();
    other[row * ROW_WORDS..][..ROW_WORDS].copy_from_slice(&[kind, 0, 0, 0]);
    without(&other, &gone)
}

/// The table without a row.
fn dropped(table: &[u32], row: usize) -> Vec<u32> {
    let mut gone = vec![false; table.len() / ROW_WORDS];
    gone[row] = true;
    without(table, &gone)
}
