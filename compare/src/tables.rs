//! Random tables: recipes at and over every limit, their rows in any order that the rules allow.

use independent::marks::VARIABLES;
use independent::random::{Random, DATA_VARIABLES};
use independent::recipes::{
    all_left, all_right, assign, constant, if_else, lay, lay_backward, output, sequence, skip,
    variable, while_do, Part,
};
use independent::table::{
    Word, MOST_HEIGHT, MOST_LOOP_NESTING, MOST_NESTING, MOST_ROWS, ROW_WORDS,
};

use crate::kinds::Kind;
use crate::words::places;

/// A table, the kind of case that it was made for, and the judge's number that makes it one.
pub struct Table {
    pub words: Vec<u32>,
    pub kind: Kind,
    pub number: u32,
}

/// Deep inside a nest a sequence has room for this many rows; the nest takes the others.
const NESTED_ROWS: usize = 400;

/// A table without damage: accepted, or just over one limit.
pub fn table(random: &mut Random) -> Table {
    let (part, kind) = match random.below(20) {
        0..=2 => nest_at_limits(random),
        3..=5 => tall_at_limit(random),
        6 => long(random),
        7 => long_nested(random),
        8..=9 => (chain(random), Kind::Chain),
        10 => (random.expression(4), Kind::LastExpression),
        _ => {
            let words = random.recipe();
            return made_for(words, Kind::Recipe);
        }
    };
    laid(random, &part, kind)
}

/// The number that a table of a kind of its own is refused by; 0 where it is accepted.
fn made_for(words: Vec<u32>, kind: Kind) -> Table {
    let number = match kind {
        Kind::TooManyRows => 1,
        Kind::LastExpression => 4,
        Kind::TooHigh | Kind::TooDeep | Kind::LoopsTooDeep => 5,
        _ => 0,
    };
    Table {
        words,
        kind,
        number,
    }
}

/// Lays a recipe out, children first or last first, or in any order.
fn laid(random: &mut Random, part: &Part, kind: Kind) -> Table {
    match random.below(4) {
        0 => made_for(lay(part), kind),
        1 => made_for(lay_backward(part), kind),
        _ => {
            let words = random.reordered(&lay(part));
            let long = matches!(kind, Kind::LongLeft | Kind::LongRight);
            let kind = if long { Kind::ReorderedLong } else { kind };
            made_for(words, kind)
        }
    }
}

/// One more than a limit at times.
fn at_or_over(random: &mut Random, limit: u32) -> u32 {
    limit + u32::from(random.percent(15))
}

fn nest_at_limits(random: &mut Random) -> (Part, Kind) {
    let nesting = at_or_over(random, MOST_NESTING);
    let loops = at_or_over(random, MOST_LOOP_NESTING);
    let inmost = random.statement(0, 0);
    let kind = if loops > MOST_LOOP_NESTING {
        Kind::LoopsTooDeep
    } else if nesting > MOST_NESTING {
        Kind::TooDeep
    } else {
        Kind::NestAtLimits
    };
    (random.nest(nesting, loops, 0, inmost), kind)
}

fn tall_at_limit(random: &mut Random) -> (Part, Kind) {
    let height = at_or_over(random, MOST_HEIGHT);
    let tall = random.tall(height);
    let statement = match random.below(5) {
        0 => assign(random.below(DATA_VARIABLES), tall),
        1 => output(random.below(2), tall),
        2 => while_do(tall, random.simple()),
        3 => random.repeated(output(1, tall), 0),
        _ => if_else(tall, random.simple(), random.simple()),
    };
    let kind = if height > MOST_HEIGHT {
        Kind::TooHigh
    } else {
        Kind::TallAtLimit
    };
    (sequence(statement, random.statement(2, 0)), kind)
}

/// A sequence of 512 rows, or of 513.
fn long(random: &mut Random) -> (Part, Kind) {
    let rows = at_or_over(random, MOST_ROWS as u32) as usize;
    let statements = statements(random, rows);
    let (part, kind) = if random.percent(50) {
        (all_left(statements), Kind::LongLeft)
    } else {
        (all_right(statements), Kind::LongRight)
    };
    if rows > MOST_ROWS {
        return (part, Kind::TooManyRows);
    }
    (part, kind)
}

fn long_nested(random: &mut Random) -> (Part, Kind) {
    let statements = statements(random, NESTED_ROWS);
    let inmost = if random.percent(50) {
        all_left(statements)
    } else {
        all_right(statements)
    };
    let nesting = 1 + random.below(MOST_NESTING);
    let loops = random.below(nesting.min(MOST_LOOP_NESTING) + 1);
    (random.nest(nesting, loops, 0, inmost), Kind::LongNested)
}

/// Statements that take exactly this many rows, those that join them in sequences among them.
fn statements(random: &mut Random, rows: usize) -> Vec<Part> {
    /// More than the rows of the longest simple statement, its join, and what fills up.
    const ENOUGH: usize = 16;
    let mut statements = Vec::new();
    // Each statement is joined to the others by a row, but for one.
    let mut left = rows + 1;
    while left > ENOUGH {
        let statement = random.simple();
        left -= lay(&statement).len() / ROW_WORDS + 1;
        statements.push(statement);
    }
    if !left.is_multiple_of(2) {
        statements.push(assign(0, constant(1)));
        left -= 3;
    }
    statements.extend(vec![skip(); left / 2]);
    statements
}

/// Loops in which each variable of a chain is assigned the one before it, in any order: a mark
/// at its start moves one variable, or more, in each turn.
fn chain(random: &mut Random) -> Part {
    // Data variables and counters stand below the chain.
    let first = DATA_VARIABLES + MOST_LOOP_NESTING + 1;
    let last = first + 1 + random.below(VARIABLES as u32 - first - 1);
    let mut links: Vec<Part> = (first..last)
        .map(|link| assign(link + 1, variable(link)))
        .collect();
    links.push(assign(first, variable(random.below(DATA_VARIABLES))));
    if random.percent(50) {
        links.reverse();
    } else {
        shuffle(random, &mut links);
    }
    if random.percent(70) {
        let told = first + random.below(last - first + 1);
        let at = random.below(links.len() as u32 + 1) as usize;
        links.insert(at, output(random.below(2), variable(told)));
    }
    let loops = 1 + random.below(MOST_LOOP_NESTING);
    let test = variable(random.one_of(&[0, first, last]));
    let inmost = if_else(test, all_right(links), random.simple());
    random.nest(loops, loops, 0, inmost)
}

fn shuffle<T>(random: &mut Random, items: &mut [T]) {
    for i in (1..items.len()).rev() {
        items.swap(i, random.below(i as u32 + 1) as usize);
    }
}

/// New names for the variables, so that high ones are read, assigned and marked too.
pub struct Names([u32; VARIABLES]);

impl Names {
    /// Every second time all variables keep their names.
    pub fn random(random: &mut Random) -> Names {
        let mut names = std::array::from_fn(|variable| variable as u32);
        if random.percent(50) {
            shuffle(random, &mut names);
        }
        Names(names)
    }

    /// Two variables exchange their names.
    pub fn exchanged(one: usize, other: usize) -> Names {
        let mut names = std::array::from_fn(|variable| variable as u32);
        names.swap(one, other);
        Names(names)
    }

    /// The table with its variables renamed; a word that is no variable's number stays.
    pub fn of_table(&self, words: &mut [u32]) {
        for place in places(words, |role| role == Word::Variable) {
            if let Some(name) = self.0.get(words[place] as usize) {
                words[place] = *name;
            }
        }
    }

    pub fn of_marks(&self, marks: u32) -> u32 {
        let marked = (0..VARIABLES).filter(|variable| marks >> variable & 1 == 1);
        marked.fold(0, |renamed, variable| renamed | 1 << self.0[variable])
    }
    pub fn of_memory(&self, memory: &mut [u32]) {
        let before = memory.to_vec();
        for (variable, name) in self.0.iter().enumerate().take(before.len()) {
            if let Some(value) = memory.get_mut(*name as usize) {
                *value = before[variable];
            }
        }
    }
}
