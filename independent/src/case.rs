//! Cases: questions that a job cannot put, in lines like a job's.

use crate::job::{end_lines, list, refusal_lines, Lines, LACKS_FORM};
use crate::levels::{levels, Outcome};
use crate::marks::{from_bits, to_bits, united, Marks, EMPTY, VARIABLES};
use crate::rows::{assigned_at, row_at, value_at};
use crate::run::{run, Answer};
use crate::table::{judge, words_of, Refusal};
use crate::text::{read, Reading};
use crate::tree::{Memory, Operator};

/// The functions that cases ask. An answer's lines are the same, whoever gives it.
pub struct Functions {
    pub judge: fn(&[u32]) -> Result<(), Refusal>,
    pub levels: fn(&[u32], u32) -> (Outcome, u32),
    pub run: fn(&[u32], Memory, u32, u32, &mut [u32]) -> (Answer, u32),
    pub read: fn(&[u8], &mut [u32]) -> Reading,
}

const OWN: Functions = Functions {
    judge: |words| judge(words).map(|_| ()),
    levels,
    run,
    read,
};

/// Answers a case; a case that lacks its form is refused as a job line would be.
pub fn answer(input: &[u8]) -> Result<String, Refusal> {
    answer_by(&OWN, input)
}

/// What an answer says for every unknown kind, and for the kind of a row that is not there.
const UNKNOWN: u32 = 11;

/// Answers a case by these functions; rows, mark sets and operators are always answered here.
pub fn answer_by(functions: &Functions, input: &[u8]) -> Result<String, Refusal> {
    let mut lines = Lines::of(input);
    let answer = match lines.word("ask")? {
        b"judge" => {
            let words = counted(&mut lines, "count", "words")?;
            judge_lines((functions.judge)(&words))
        }
        b"run" => run_answer(functions, &mut lines)?,
        b"levels" => {
            let words = counted(&mut lines, "count", "words")?;
            let marks = lines.number("levels", u32::MAX)?;
            levels_lines((functions.levels)(&words, marks))
        }
        b"rows" => rows_answer(&mut lines)?,
        b"marks" => marks_answer(&mut lines)?,
        b"operator" => operator_answer(&mut lines)?,
        b"text" => text_answer(functions, &mut lines)?,
        _ => return Err(lacks_form(1)),
    };
    lines.end()?;
    Ok(answer)
}

fn lacks_form(at: u32) -> Refusal {
    let number = LACKS_FORM;
    Refusal { number, at }
}

/// A count on one line and so many numbers on the next.
fn counted(lines: &mut Lines, count: &str, key: &str) -> Result<Vec<u32>, Refusal> {
    let count = lines.number(count, u32::MAX)?;
    lines.numbers(key, count as usize, u32::MAX)
}

fn memory(lines: &mut Lines) -> Result<Memory, Refusal> {
    let mut memory: Memory = [0; VARIABLES];
    memory.copy_from_slice(&lines.numbers("mem", VARIABLES, u32::MAX)?);
    Ok(memory)
}

pub fn judge_answer(words: &[u32]) -> String {
    judge_lines((OWN.judge)(words))
}

fn judge_lines(judged: Result<(), Refusal>) -> String {
    let accepted = Refusal { number: 0, at: 0 };
    refusal_lines(judged.err().unwrap_or(accepted))
}

pub fn levels_answer(words: &[u32], marks: u32) -> String {
    levels_lines((OWN.levels)(words, marks))
}

fn levels_lines((outcome, marks): (Outcome, u32)) -> String {
    let first = match outcome {
        Outcome::Refused(refusal) => refusal_lines(refusal),
        Outcome::Pass => "failed=0\nat=0\n".to_string(),
        Outcome::Fail { row } => format!("failed=1\nat={row}\n"),
    };
    first + &format!("levels={marks}\n")
}

fn run_answer(functions: &Functions, lines: &mut Lines) -> Result<String, Refusal> {
    let words = counted(lines, "count", "words")?;
    let memory = memory(lines)?;
    let marks = lines.number("levels", u32::MAX)?;
    let budget = lines.number("budget", u32::MAX)?;
    let mut trace = counted(lines, "lent", "trace")?;
    let (answer, marks) = (functions.run)(&words, memory, marks, budget, &mut trace);
    let mut text = end_lines(&answer.end);
    text += &format!("steps={}\nlevels={marks}\n", answer.steps);
    text += &format!("mem={}\n", list(&answer.memory));
    text += &format!("records={}\n", answer.records);
    text += &format!("lent={}\ntrace={}\n", trace.len(), list(&trace));
    Ok(text)
}

fn rows_answer(lines: &mut Lines) -> Result<String, Refusal> {
    let words = counted(lines, "count", "words")?;
    let memory = memory(lines)?;
    let marks = lines.number("levels", u32::MAX)?;
    let asked = counted(lines, "asked", "rows")?;
    let answers = asked.iter().map(|at| {
        let value = match value_at(&words, *at, &memory, marks) {
            Ok(valued) => format!("value={}\nlevel={}\n", valued.value, valued.level),
            Err(refusal) => refusal_lines(refusal),
        };
        let assigned = match assigned_at(&words, *at) {
            Ok(assigned) => format!("assigned={assigned}\n"),
            Err(refusal) => refusal_lines(refusal),
        };
        row_lines(&words, *at) + &value + &assigned
    });
    Ok(answers.collect())
}

/// Whether the table has the row, and its words.
fn row_lines(words: &[u32], at: u32) -> String {
    let there = row_at(words, at);
    let mut row = there.unwrap_or([UNKNOWN, 0, 0, 0]);
    if words_of(row[0]).is_none() {
        row[0] = UNKNOWN;
    }
    format!("has={}\nrow={}\n", u32::from(there.is_some()), list(&row))
}

/// The variable alone; whether it is in the set; the set with and without it; both sets.
fn marks_answer(lines: &mut Lines) -> Result<String, Refusal> {
    let marks = from_bits(lines.number("levels", u32::MAX)?);
    let variable = lines.number("variable", u32::MAX)? as usize % VARIABLES;
    let others = from_bits(lines.number("others", u32::MAX)?);
    let put = |mut set: Marks, mark: bool| {
        set[variable] = mark;
        to_bits(&set)
    };
    let mut text = format!("only={}\n", put(EMPTY, true));
    text += &format!("has={}\n", u32::from(marks[variable]));
    text += &format!("with={}\n", put(marks, true));
    text += &format!("without={}\n", put(marks, false));
    Ok(text + &format!("joined={}\n", to_bits(&united(&marks, &others))))
}

/// An operator over 5, which the judge refuses, is read as the last one.
fn operator_answer(lines: &mut Lines) -> Result<String, Refusal> {
    let number = lines.number("operator", u32::MAX)?;
    let operator = Operator::numbered(number).unwrap_or(Operator::Less);
    let left = lines.number("left", u32::MAX)?;
    let right = lines.number("right", u32::MAX)?;
    Ok(format!("value={}\n", operator.value(left, right)))
}

/// The text is not in a line: it may have any bytes.
fn text_answer(functions: &Functions, lines: &mut Lines) -> Result<String, Refusal> {
    let mut table = counted(lines, "lent", "table")?;
    let length = lines.number("length", u32::MAX)?;
    let reading = (functions.read)(lines.bytes(length as usize)?, &mut table);
    let mut text = format!("refused={}\nat={}\n", reading.refused, reading.at);
    text += &format!("rows={}\nlevels={}\n", reading.rows, reading.marks);
    text += &format!("start={}\nlength={}\n", reading.start, reading.length);
    Ok(text + &format!("lent={}\ntable={}\n", table.len(), list(&table)))
}
