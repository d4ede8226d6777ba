//! The vectors: inputs made by code, expected outputs answered by this implementation.
//! The request's limits are written out here, as inputs, and not taken from the code.

mod checks;
mod document;
mod leaves;
mod lines;
mod rows;
mod runs;
mod tables;
mod texts;

use std::fs;
use std::io;
use std::path::Path;

use crate::case;
use crate::job::{list, report};
use crate::marks::VARIABLES;
use crate::recipes::{lay, Part};
use crate::run::RECORD_WORDS;
use crate::table::ROW_WORDS;

/// The input lines of the whole case, as the request gives them.
const WHOLE_CASE: [&str; 12] = [
    "budget=10",
    "room=2",
    "levels=2",
    "inputs=2",
    "in=7",
    "in=9",
    "rows=5",
    "row=9,0,0,0",
    "row=5,0,0,0",
    "row=9,1,0,0",
    "row=5,1,2,0",
    "row=2,1,3,0",
];

/// A job for the program, or a case for a function that a job does not reach: one that is asked
/// about tables, or the reader of texts.
#[derive(Clone, Copy, Debug, PartialEq, Eq)]
pub enum Form {
    Job,
    Case,
    Text,
}

/// One input; its name says what it shows.
pub struct Vector {
    pub form: Form,
    pub name: String,
    pub input: Vec<u8>,
}

impl Vector {
    pub fn job(name: &str, input: impl Into<Vec<u8>>) -> Vector {
        Vector {
            form: Form::Job,
            name: name.to_string(),
            input: input.into(),
        }
    }

    pub fn case(name: &str, input: String) -> Vector {
        Vector {
            form: Form::Case,
            name: name.to_string(),
            input: input.into_bytes(),
        }
    }

    /// The report of a job, or the answer of a case.
    pub fn expected(&self) -> String {
        match self.form {
            Form::Job => report(&self.input),
            Form::Case | Form::Text => case::answer(&self.input)
                .unwrap_or_else(|fault| format!("faulty case: {fault:?}\n")),
        }
    }
}

pub fn all() -> Vec<Vector> {
    let groups = [
        document::vectors(),
        tables::vectors(),
        runs::vectors(),
        checks::vectors(),
        rows::vectors(),
        leaves::vectors(),
        lines::vectors(),
        texts::vectors(),
    ];
    groups.into_iter().flatten().collect()
}

/// Writes every vector below `folder`, in `jobs`, `tables` and `texts`.
pub fn write(folder: &Path) -> io::Result<()> {
    for vector in all() {
        let (below, input, output) = match vector.form {
            Form::Job => ("jobs", "job", "report"),
            Form::Case => ("tables", "case", "answer"),
            Form::Text => ("texts", "case", "answer"),
        };
        let (folder, name) = (folder.join(below), &vector.name);
        fs::create_dir_all(&folder)?;
        fs::write(folder.join(format!("{name}.{input}")), &vector.input)?;
        fs::write(folder.join(format!("{name}.{output}")), vector.expected())?;
    }
    Ok(())
}

/// All that a run is given. "Unless stated, v0 alone is marked, every variable is 0,
/// budget 100, room 8."
#[derive(Clone)]
pub struct Setting {
    pub words: Vec<u32>,
    pub inputs: Vec<u32>,
    pub levels: u32,
    pub budget: u32,
    pub lent: usize,
}

impl Setting {
    pub fn of(part: &Part) -> Setting {
        Setting::of_words(lay(part))
    }

    pub fn of_words(words: Vec<u32>) -> Setting {
        Setting {
            words,
            inputs: vec![],
            levels: 1,
            budget: 100,
            lent: 16,
        }
    }

    /// The values of v0 onward.
    pub fn inputs(mut self, inputs: &[u32]) -> Setting {
        self.inputs = inputs.to_vec();
        self
    }

    pub fn levels(mut self, levels: u32) -> Setting {
        self.levels = levels;
        self
    }

    pub fn budget(mut self, budget: u32) -> Setting {
        self.budget = budget;
        self
    }

    pub fn room(mut self, room: usize) -> Setting {
        self.lent = room * RECORD_WORDS;
        self
    }

    pub fn lent(mut self, lent: usize) -> Setting {
        self.lent = lent;
        self
    }

    pub fn memory(&self) -> [u32; VARIABLES] {
        std::array::from_fn(|variable| self.inputs.get(variable).copied().unwrap_or(0))
    }

    pub fn job_text(&self) -> String {
        let room = self.lent / RECORD_WORDS;
        let mut text = format!("budget={}\nroom={room}\n", self.budget);
        text += &format!("levels={}\ninputs={}\n", self.levels, self.inputs.len());
        for input in &self.inputs {
            text += &format!("in={input}\n");
        }
        text += &format!("rows={}\n", self.words.len() / ROW_WORDS);
        for row in self.words.chunks(ROW_WORDS) {
            text += &format!("row={}\n", list(row));
        }
        text
    }

    pub fn case_text(&self) -> String {
        let trace = old_words(self.lent);
        let mut text = format!("ask=run\n{}", self.marked_text());
        text += &format!("budget={}\n", self.budget);
        text + &format!("lent={}\ntrace={}\n", self.lent, list(&trace))
    }

    /// Table, memory and marks, as cases have them.
    fn marked_text(&self) -> String {
        let (memory, levels) = (list(&self.memory()), self.levels);
        words_text(&self.words) + &format!("mem={memory}\nlevels={levels}\n")
    }

    /// The run as a job and as a case.
    pub fn both(&self, name: &str) -> [Vector; 2] {
        [
            Vector::job(name, self.job_text()),
            Vector::case(&format!("run-{name}"), self.case_text()),
        ]
    }
}

/// What a lent trace or table holds before: numbers, so that a word kept and a word written
/// can be told apart; a long one holds digits, to be short in the file.
fn old_words(count: usize) -> Vec<u32> {
    let long = count > 64;
    let old = |at: u32| if long { 1 + at % 9 } else { 900 + at };
    (0..count as u32).map(old).collect()
}

fn words_text(words: &[u32]) -> String {
    format!("count={}\nwords={}\n", words.len(), list(words))
}

pub fn judge_case(name: &str, words: &[u32]) -> Vector {
    let text = format!("ask=judge\n{}", words_text(words));
    Vector::case(&format!("judge-{name}"), text)
}

pub fn levels_case(name: &str, words: &[u32], levels: u32) -> Vector {
    let text = format!("ask=levels\n{}levels={levels}\n", words_text(words));
    Vector::case(&format!("levels-{name}"), text)
}

pub fn rows_case(name: &str, setting: &Setting, rows: &[u32]) -> Vector {
    let mut text = format!("ask=rows\n{}", setting.marked_text());
    text += &format!("asked={}\nrows={}\n", rows.len(), list(rows));
    Vector::case(&format!("rows-{name}"), text)
}

pub fn marks_case(name: &str, levels: u32, variable: u32, others: u32) -> Vector {
    let text = format!("ask=marks\nlevels={levels}\nvariable={variable}\nothers={others}\n");
    Vector::case(&format!("marks-{name}"), text)
}

pub fn text_case(name: &str, text: &[u8], lent: usize) -> Vector {
    let mut input = format!("ask=text\nlent={lent}\n");
    input += &format!("table={}\nlength={}\n", list(&old_words(lent)), text.len());
    Vector {
        form: Form::Text,
        name: name.to_string(),
        input: [input.as_bytes(), text].concat(),
    }
}

pub fn operator_case(name: &str, operator: u32, left: u32, right: u32) -> Vector {
    let text = format!("ask=operator\noperator={operator}\nleft={left}\nright={right}\n");
    Vector::case(&format!("operator-{name}"), text)
}
