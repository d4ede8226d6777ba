//! The stored cases: the proved functions on each, against the answer that the independent
//! implementation wrote beside it.

use std::fs;
use std::io;
use std::path::{Path, PathBuf};

use buzorinde::{Checked, Ended, Judged, Read};
use independent::case::{answer_by, Functions};
use independent::levels::Outcome;
use independent::run::{Answer, End, Verdict};
use independent::table::Refusal;
use independent::text::Reading;
use independent::tree::Memory;

const PROVED: Functions = Functions {
    judge,
    levels,
    run,
    read,
};

/// What the functions for C and Rust can be asked; the program `cases` asks the rest.
const ASKED: [&[u8]; 4] = [b"ask=judge\n", b"ask=run\n", b"ask=levels\n", b"ask=text\n"];

/// Answers how many cases there were, or what is to be told of the first difference.
pub fn compare_stored(folder: &Path) -> Result<usize, String> {
    let cases = cases(folder).map_err(|error| told(folder, &error))?;
    let mut compared = 0;
    for case in &cases {
        let input = fs::read(case).map_err(|error| told(case, &error))?;
        if !ASKED.iter().any(|ask| input.starts_with(ask)) {
            continue;
        }
        let stored = case.with_extension("answer");
        let expected = fs::read_to_string(&stored).map_err(|error| told(&stored, &error))?;
        let given = answer_by(&PROVED, &input).map_err(|_| told(case, &"lacks its form"))?;
        if given != expected {
            let name = case.display();
            return Err(format!("{name}:\nexpected\n{expected}proved\n{given}"));
        }
        compared += 1;
    }
    if compared == 0 {
        return Err(told(folder, &"has no case"));
    }
    Ok(compared)
}

fn told(path: &Path, what: &dyn std::fmt::Display) -> String {
    format!("{}: {what}\n", path.display())
}

fn cases(folder: &Path) -> io::Result<Vec<PathBuf>> {
    let entries = fs::read_dir(folder)?.map(|entry| entry.map(|entry| entry.path()));
    let mut paths = entries.collect::<io::Result<Vec<PathBuf>>>()?;
    paths.retain(|path| {
        path.extension()
            .is_some_and(|extension| extension == "case")
    });
    paths.sort();
    Ok(paths)
}

fn judge(words: &[u32]) -> Result<(), Refusal> {
    match buzorinde::judge(words) {
        Judged::Accepted => Ok(()),
        Judged::Refused { number, row } => Err(Refusal { number, at: row }),
    }
}

fn levels(words: &[u32], marks: u32) -> (Outcome, u32) {
    let advice = buzorinde::check(words, marks);
    let outcome = match advice.checked {
        Checked::Pass => Outcome::Pass,
        Checked::Fail(row) => Outcome::Fail { row },
        Checked::Refused { number, row } => Outcome::Refused(Refusal { number, at: row }),
    };
    (outcome, advice.marks)
}

fn run(words: &[u32], memory: Memory, marks: u32, budget: u32, trace: &mut [u32]) -> (Answer, u32) {
    let mut reached = memory;
    let answer = buzorinde::run(words, &mut reached, marks, budget, trace);
    let ended = |verdict, place, because| End::Ended {
        verdict,
        place,
        because,
    };
    let end = match answer.ended {
        Ended::Done => ended(Verdict::Done, 0, 0),
        Ended::Stopped { row, because } => ended(Verdict::Denied, row, because),
        Ended::Spent => ended(Verdict::BudgetUsed, 0, 0),
        Ended::NoRoom(row) => ended(Verdict::NoRoom, row, 0),
        Ended::Refused { number, row } => End::Refused(Refusal { number, at: row }),
    };
    let given = Answer {
        end,
        steps: answer.steps,
        memory: reached,
        records: answer.records as usize,
    };
    (given, answer.marks)
}

fn read(text: &[u8], table: &mut [u32]) -> Reading {
    let reading = buzorinde::read(text, table);
    let (refused, at, rows, marks) = match reading.read {
        Read::Recipe { rows, marks } => (0, 0, rows, marks),
        Read::Refused { number, row } => (number, row, 0, 0),
    };
    Reading {
        refused,
        at,
        rows: rows as usize,
        marks,
        start: reading.start,
        length: reading.part.len(),
    }
}
