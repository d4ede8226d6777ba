//! A small generator with a seed, and random recipes, memories and damages.

use crate::marks::VARIABLES;
use crate::recipes::{
    assign, binary, constant, if_else, lay, less_one, output, sequence, skip, variable, while_do,
    Part,
};
use crate::table::{judge, words_of, Row, Word, MOST_LOOP_NESTING, MOST_ROWS, ROW_WORDS};
use crate::tree::Memory;

/// Recipes read and assign few variables, so that flows between them are common.
pub const DATA_VARIABLES: u32 = 5;
/// Counters of loops that end: one for each depth of loops, assigned nowhere else.
const FIRST_COUNTER: u32 = DATA_VARIABLES;
pub const OPERATORS: u32 = 6;

pub struct Random(u64);

impl Random {
    pub fn new(seed: u64) -> Random {
        let mut random = Random(seed.wrapping_mul(0x9E37_79B9_7F4A_7C15) | 1);
        // The first numbers of near seeds are alike.
        for _ in 0..8 {
            random.number();
        }
        random
    }

    /// The next number, by shifts and sums without carry.
    pub fn number(&mut self) -> u32 {
        self.0 ^= self.0 << 13;
        self.0 ^= self.0 >> 7;
        self.0 ^= self.0 << 17;
        (self.0 >> 32) as u32
    }

    /// A number below `limit`, which is not 0.
    pub fn below(&mut self, limit: u32) -> u32 {
        self.number() % limit
    }

    pub fn percent(&mut self, chance: u32) -> bool {
        self.below(100) < chance
    }

    pub fn one_of<T: Copy>(&mut self, choices: &[T]) -> T {
        choices[self.below(choices.len() as u32) as usize]
    }

    /// Mostly small, so that tests hold and fail; at times at the ends of the range.
    pub fn value(&mut self) -> u32 {
        match self.below(10) {
            0 => self.one_of(&[u32::MAX, u32::MAX - 1, 1 << 31, 1 << 16]),
            1 => self.number(),
            _ => self.below(3),
        }
    }

    /// A value for every variable.
    pub fn memory(&mut self) -> Memory {
        std::array::from_fn(|_| self.value())
    }

    /// Each variable that recipes use is marked or not; the others at times.
    pub fn marks(&mut self) -> u32 {
        match self.below(8) {
            0 => 0,
            1 => self.number(),
            _ => self.below(1 << (DATA_VARIABLES + MOST_LOOP_NESTING)) & self.number(),
        }
    }

    /// A recipe that the judge accepts, its rows in a random order that the rules allow.
    pub fn recipe(&mut self) -> Vec<u32> {
        loop {
            let part = self.statement(4, 0);
            let words = self.reordered(&lay(&part));
            if judge(&words).is_ok() {
                return words;
            }
        }
    }

    /// A statement nested at most `depth` deep, for a place inside so many loops.
    pub fn statement(&mut self, depth: u32, loops: u32) -> Part {
        if depth == 0 {
            return self.simple();
        }
        match self.below(10) {
            0 => self.simple(),
            1..=4 => {
                let first = self.statement(depth - 1, loops);
                sequence(first, self.statement(depth, loops))
            }
            5..=7 => {
                let test = self.expression(2);
                let then = self.statement(depth - 1, loops);
                if_else(test, then, self.statement(depth - 1, loops))
            }
            _ if loops == MOST_LOOP_NESTING => self.simple(),
            _ => {
                let body = self.statement(depth - 1, loops + 1);
                self.repeated(body, loops)
            }
        }
    }

    /// A loop that counts down and ends, or one with any test, which may be endless.
    pub fn repeated(&mut self, body: Part, loops: u32) -> Part {
        let counter = FIRST_COUNTER + loops;
        if self.percent(25) {
            return while_do(self.expression(2), body);
        }
        let counted = while_do(variable(counter), sequence(body, less_one(counter)));
        let start = if self.percent(30) {
            self.expression(1)
        } else {
            constant(self.below(4))
        };
        sequence(assign(counter, start), counted)
    }

    /// A statement without statements in it.
    pub fn simple(&mut self) -> Part {
        match self.below(8) {
            0 => skip(),
            1..=4 => assign(self.below(DATA_VARIABLES), self.expression(3)),
            5 => output(0, self.expression(2)),
            _ => output(self.below(2), self.expression(1)),
        }
    }

    /// An expression of at most this height.
    pub fn expression(&mut self, height: u32) -> Part {
        match self.below(6) {
            0 | 1 => variable(self.below(DATA_VARIABLES)),
            2 => variable(self.below(DATA_VARIABLES + MOST_LOOP_NESTING)),
            3 => constant(self.value()),
            _ if height == 1 => constant(self.below(2)),
            _ => {
                let left = self.expression(height - 1);
                let right = self.expression(height - 1);
                binary(self.below(OPERATORS), left, right)
            }
        }
    }

    /// Ifs and loops around a statement: exactly so many levels, exactly so many of them loops.
    /// `outside` is the number of loops around the whole.
    pub fn nest(&mut self, nesting: u32, loops: u32, outside: u32, inmost: Part) -> Part {
        if nesting == 0 {
            return inmost;
        }
        let level = if self.below(nesting) < loops {
            let body = self.nest(nesting - 1, loops - 1, outside + 1, inmost);
            self.repeated(body, outside)
        } else {
            let test = self.expression(2);
            let inner = self.nest(nesting - 1, loops, outside, inmost);
            let beside = self.simple();
            if self.percent(50) {
                if_else(test, inner, beside)
            } else {
                if_else(test, beside, inner)
            }
        };
        match self.below(4) {
            0 => sequence(self.simple(), level),
            1 => sequence(level, self.simple()),
            _ => level,
        }
    }

    /// An expression of exactly this height; at each operator either side is the taller one.
    pub fn tall(&mut self, height: u32) -> Part {
        (1..height).fold(self.expression(1), |tall, _| {
            let operator = self.below(OPERATORS);
            let beside = self.expression(2);
            match self.below(2) {
                // A side of height 2 beside a leaf would be the taller one.
                _ if is_leaf(&tall) => binary(operator, tall, self.expression(1)),
                0 => binary(operator, tall, beside),
                _ => binary(operator, beside, tall),
            }
        })
    }

    /// The same tree with its rows in another order, children before parents.
    pub fn reordered(&mut self, words: &[u32]) -> Vec<u32> {
        let rows: Vec<&[u32]> = words.chunks(ROW_WORDS).collect();
        let mut places: Vec<Option<u32>> = vec![None; rows.len()];
        let mut waiting: Vec<usize> = (0..rows.len()).collect();
        let mut laid = Vec::new();
        while !waiting.is_empty() {
            let chosen = self.below(waiting.len() as u32) as usize;
            if let Some(moved) = moved(rows[waiting[chosen]], &places) {
                places[waiting[chosen]] = Some((laid.len() / ROW_WORDS) as u32);
                laid.extend(moved);
                waiting.swap_remove(chosen);
            }
        }
        laid
    }

    /// A table with a few words changed, cut short, or one word too long.
    pub fn damaged(&mut self, words: &[u32]) -> Vec<u32> {
        let mut damaged = words.to_vec();
        for _ in 0..=self.below(3) {
            let at = self.below(damaged.len() as u32) as usize;
            damaged[at] = match self.below(4) {
                0 => self.below(12),
                1 => self.below(VARIABLES as u32 + 2),
                2 => self.below(MOST_ROWS as u32),
                _ => self.value(),
            };
        }
        if self.percent(10) {
            damaged.truncate(self.below(words.len() as u32) as usize);
        }
        if self.percent(10) {
            damaged.push(self.value());
        }
        damaged
    }
}

fn is_leaf(part: &Part) -> bool {
    lay(part).len() == ROW_WORDS
}

/// The row with its children's new numbers, once all of them are placed.
fn moved(row: &[u32], places: &[Option<u32>]) -> Option<Row> {
    let mut moved = [row[0], row[1], row[2], row[3]];
    for (i, word) in words_of(row[0])?.iter().enumerate() {
        if matches!(word, Word::Expression | Word::Statement) {
            moved[i + 1] = places[row[i + 1] as usize]?;
        }
    }
    Some(moved)
}
