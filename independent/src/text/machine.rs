//! The machine: a stack of what is still to come, and one of numbers for rows to be.

use super::grammar::{rule, Symbol, RECIPE};
use super::words::{Class, Word};
use crate::table::{self, words_of, Row, ROW_WORDS};

struct Machine<'a> {
    words: &'a [Word],
    /// How many words are read.
    read: usize,
    /// What is still to come, the first on top.
    stack: Vec<Symbol>,
    /// Numbers that no row has yet: values, and numbers of rows that are no row's child yet.
    kept: Vec<u32>,
    rows: Vec<Row>,
}

/// The rows that a recipe's words stand for; else which word is the faulty one, and how many
/// words there are where a further one is missing.
pub fn rows(words: &[Word]) -> Result<Vec<Row>, usize> {
    let mut machine = Machine {
        words,
        read: 0,
        stack: Vec::new(),
        kept: Vec::new(),
        rows: Vec::new(),
    };
    machine.await_all(&RECIPE);
    while let Some(symbol) = machine.stack.pop() {
        machine.step(symbol).ok_or(machine.read)?;
    }
    if machine.read < words.len() {
        return Err(machine.read);
    }
    Ok(machine.rows)
}

impl Machine<'_> {
    fn await_all(&mut self, symbols: &[Symbol]) {
        self.stack.extend(symbols.iter().rev());
    }

    /// None where the next word is not one that may come.
    fn step(&mut self, symbol: Symbol) -> Option<()> {
        match symbol {
            Symbol::Goal(goal) => {
                let next = self.words.get(self.read).map(|word| word.class);
                self.await_all(rule(goal, next)?);
            }
            Symbol::Word(class) => {
                self.take(class)?;
            }
            Symbol::Value(class) => {
                let word = self.take(class)?;
                self.kept.push(word.value);
            }
            Symbol::Row(kind) => self.add_row(kind),
            Symbol::Exchange => {
                let last = self.kept.len() - 1;
                self.kept.swap(last - 1, last);
            }
        }
        Some(())
    }

    fn take(&mut self, class: Class) -> Option<Word> {
        let next = self.words.get(self.read).copied();
        let word = next.filter(|word| word.class == class)?;
        self.read += 1;
        Some(word)
    }

    /// "A child's rows come before its own, in reading order"
    fn add_row(&mut self, kind: u32) {
        let words = words_of(kind).into_iter().flatten();
        let named = words.filter(|word| *word != table::Word::Unnamed).count();
        let mut row = [0; ROW_WORDS];
        row[0] = kind;
        let numbers = self.kept.drain(self.kept.len() - named..);
        for (place, number) in row[1..].iter_mut().zip(numbers) {
            *place = number;
        }
        self.kept.push(self.rows.len() as u32);
        self.rows.push(row);
    }
}
