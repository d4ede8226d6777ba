//! Recipe runs under watch: safe functions over the proved static library.
//!
//! Each function here lends a buffer for the answer, and a run a memory, of the length that the library asks for, so that every call
//! answers, and turns the answer's words into the enum that they stand for. What the header `buzorinde.h` says of every function of
//! the library is true of these too, but for the little stack that they take themselves.

mod numbers;

pub use numbers::{CheckVerdict, Refusal, Status, Verdict};
use std::fmt;

/// The functions for C as they are, for callers that lend buffers of any length.
pub mod library {
    extern "C" {
        pub fn buzorinde_judge(
            table: *const u32,
            table_words: usize,
            answer: *mut u32,
            answer_words: usize,
        ) -> u32;

        pub fn buzorinde_check(
            table: *const u32,
            table_words: usize,
            marks: u32,
            answer: *mut u32,
            answer_words: usize,
        ) -> u32;

        pub fn buzorinde_run(
            table: *const u32,
            table_words: usize,
            memory: *mut u32,
            memory_words: usize,
            marks: u32,
            budget: u32,
            trace: *mut u32,
            trace_words: usize,
            answer: *mut u32,
            answer_words: usize,
        ) -> u32;

        pub fn buzorinde_read(
            text: *const u8,
            text_bytes: usize,
            table: *mut u32,
            table_words: usize,
            answer: *mut u32,
            answer_words: usize,
        ) -> u32;
    }
}

/// How many variables a memory has.
pub const VARIABLES: usize = 32;

/// How many words each function's answer takes.
pub const JUDGE_WORDS: usize = 3;
pub const CHECK_WORDS: usize = 4;
pub const RUN_WORDS: usize = 7;
pub const READ_WORDS: usize = 7;

/// How many words a row of a table and a record of a trace take.
pub const ROW_WORDS: usize = 4;
pub const RECORD_WORDS: usize = 2;

/// The most rows of a table, and the most words of a trace that may be lent. Of an odd number of words the last is never written.
pub const MOST_ROWS: usize = 512;
pub const MOST_TRACE_WORDS: usize = 16384;

/// The most bytes of a text, and the words of a table that has room for every recipe.
pub const MOST_TEXT_BYTES: usize = 16384;
pub const MOST_TABLE_WORDS: usize = ROW_WORDS * MOST_ROWS;

/// The channels of outputs and records.
pub const SETTLED: u32 = 0;
pub const PROVISIONAL: u32 = 1;

/// What the judge says of a table.
#[derive(Clone, Copy, Debug, PartialEq, Eq)]
pub enum Judged {
    Accepted,
    Refused { number: u32, row: u32 },
}

/// What the level check says of a table: pass, or fail with the lowest failing row.
#[derive(Clone, Copy, Debug, PartialEq, Eq)]
pub enum Checked {
    Pass,
    Fail(u32),
    Refused { number: u32, row: u32 },
}

/// What the level check answers: its word, and the final marks.
#[derive(Clone, Copy, Debug, PartialEq, Eq)]
pub struct Advice {
    pub checked: Checked,
    pub marks: u32,
}

/// How a run ended: done, stopped by the monitor at an output's row, with its budget used up, or at an output's row without
/// room; or refused. `because` is the set of the provisional variables that the output's expression reads, bit i for variable i; it
/// is 0 where it reads none and its context alone is provisional.
#[derive(Clone, Copy, Debug, PartialEq, Eq)]
pub enum Ended {
    Done,
    Stopped { row: u32, because: u32 },
    Spent,
    NoRoom(u32),
    Refused { number: u32, row: u32 },
}

/// What a run answers beside the memory and the trace that it was lent. Its records are the first words of the trace.
#[derive(Clone, Copy, Debug, PartialEq, Eq)]
pub struct Answer {
    pub ended: Ended,
    pub steps: u32,
    pub records: u32,
    pub marks: u32,
}

/// What a text is: a recipe, with how many rows it has and its start marks; or refused, and then the table is as it was lent. The
/// row is that of refusal 5, and 0 for the others.
#[derive(Clone, Copy, Debug, PartialEq, Eq)]
pub enum Read {
    Recipe { rows: u32, marks: u32 },
    Refused { number: u32, row: u32 },
}

/// What a reading answers beside the table that it was lent: what the text is, and the part of the text that is handed back. That is
/// the faulty word for refusals 10 and 11, and in every other case, and for a fault at the end, the empty part at the text's end.
#[derive(Clone, Copy, Debug, PartialEq, Eq)]
pub struct Reading<'a> {
    pub read: Read,
    /// Where the part starts in the text.
    pub start: usize,
    pub part: &'a [u8],
}

/// A record of a trace.
#[derive(Clone, Copy, Debug, PartialEq, Eq)]
pub struct Record {
    pub channel: u32,
    pub value: u32,
}

impl Answer {
    /// The records that the run has left in the trace that it was lent.
    pub fn records_in<'a>(&self, trace: &'a [u32]) -> impl ExactSizeIterator<Item = Record> + 'a {
        trace
            .chunks_exact(RECORD_WORDS)
            .take(self.records as usize)
            .map(|words| Record {
                channel: words[0],
                value: words[1],
            })
    }
}

impl Judged {
    /// Why the table was refused, if it was.
    pub fn refusal(self) -> Option<Refusal> {
        match self {
            Judged::Refused { number, .. } => Refusal::from_number(number),
            Judged::Accepted => None,
        }
    }
}

impl Checked {
    /// Why the check was refused, if it was.
    pub fn refusal(self) -> Option<Refusal> {
        match self {
            Checked::Refused { number, .. } => Refusal::from_number(number),
            Checked::Pass | Checked::Fail(_) => None,
        }
    }

    /// The verdict, unless the check was refused.
    pub fn verdict(self) -> Option<CheckVerdict> {
        match self {
            Checked::Pass => Some(CheckVerdict::Pass),
            Checked::Fail(_) => Some(CheckVerdict::Fail),
            Checked::Refused { .. } => None,
        }
    }
}

impl Ended {
    /// Why the run was refused, if it was.
    pub fn refusal(self) -> Option<Refusal> {
        match self {
            Ended::Refused { number, .. } => Refusal::from_number(number),
            _ => None,
        }
    }

    /// The verdict, unless the run was refused.
    pub fn verdict(self) -> Option<Verdict> {
        match self {
            Ended::Done => Some(Verdict::Done),
            Ended::Stopped { .. } => Some(Verdict::Stopped),
            Ended::Spent => Some(Verdict::Spent),
            Ended::NoRoom(_) => Some(Verdict::NoRoom),
            Ended::Refused { .. } => None,
        }
    }
}

impl Read {
    /// Why the text was refused, if it was.
    pub fn refusal(self) -> Option<Refusal> {
        match self {
            Read::Refused { number, .. } => Refusal::from_number(number),
            Read::Recipe { .. } => None,
        }
    }
}

/// Writes a refusal: its number, its row and its sentence.
fn write_refused(f: &mut fmt::Formatter<'_>, number: u32, row: u32) -> fmt::Result {
    write!(f, "refused {number} at row {row}")?;
    match Refusal::from_number(number) {
        Some(refusal) => write!(f, ": {refusal}"),
        None => Ok(()),
    }
}

impl fmt::Display for Judged {
    fn fmt(&self, f: &mut fmt::Formatter<'_>) -> fmt::Result {
        match *self {
            Judged::Accepted => f.write_str("accepted"),
            Judged::Refused { number, row } => write_refused(f, number, row),
        }
    }
}

impl fmt::Display for Checked {
    fn fmt(&self, f: &mut fmt::Formatter<'_>) -> fmt::Result {
        match *self {
            Checked::Pass => write!(f, "pass: {}", CheckVerdict::Pass),
            Checked::Fail(row) => write!(f, "fail at row {row}: {}", CheckVerdict::Fail),
            Checked::Refused { number, row } => write_refused(f, number, row),
        }
    }
}

/// The variables of a set, such as a mark set or what a run was stopped because of, lowest first.
pub fn variables_in(set: u32) -> impl Iterator<Item = u32> {
    (0..VARIABLES as u32).filter(move |variable| set >> variable & 1 == 1)
}

/// Writes what a run was stopped because of: the variables, or its context alone.
fn write_because(f: &mut fmt::Formatter<'_>, because: u32) -> fmt::Result {
    f.write_str(" because of")?;
    if because == 0 {
        return f.write_str(" its context");
    }
    variables_in(because).try_for_each(|variable| write!(f, " v{variable}"))
}

impl fmt::Display for Ended {
    fn fmt(&self, f: &mut fmt::Formatter<'_>) -> fmt::Result {
        match *self {
            Ended::Done => write!(f, "done: {}", Verdict::Done),
            Ended::Stopped { row, because } => {
                write!(f, "stopped at row {row}")?;
                write_because(f, because)?;
                write!(f, ": {}", Verdict::Stopped)
            }
            Ended::Spent => write!(f, "spent: {}", Verdict::Spent),
            Ended::NoRoom(row) => write!(f, "no room at row {row}: {}", Verdict::NoRoom),
            Ended::Refused { number, row } => write_refused(f, number, row),
        }
    }
}

impl fmt::Display for Read {
    fn fmt(&self, f: &mut fmt::Formatter<'_>) -> fmt::Result {
        match *self {
            Read::Recipe { rows, marks } => write!(f, "a recipe of {rows} rows with marks {marks}"),
            Read::Refused { number, row } => write_refused(f, number, row),
        }
    }
}

/// Judges a table: accepted, or the lowest refusal from 1 to 5 that applies anywhere, with its lowest row.
pub fn judge(table: &[u32]) -> Judged {
    let mut answer = [0; JUDGE_WORDS];
    // SAFETY: each pointer comes from a slice with its length, and only `answer` is written.
    let status = unsafe {
        library::buzorinde_judge(
            table.as_ptr(),
            table.len(),
            answer.as_mut_ptr(),
            answer.len(),
        )
    };
    debug_assert_eq!(status, 0);
    match answer {
        [0, ..] => Judged::Accepted,
        [number, _, row] => Judged::Refused { number, row },
    }
}

/// Checks the levels of a table from a mark set, without running it.
pub fn check(table: &[u32], marks: u32) -> Advice {
    let mut answer = [0; CHECK_WORDS];
    // SAFETY: each pointer comes from a slice with its length, and only `answer` is written.
    let status = unsafe {
        library::buzorinde_check(
            table.as_ptr(),
            table.len(),
            marks,
            answer.as_mut_ptr(),
            answer.len(),
        )
    };
    debug_assert_eq!(status, 0);
    let [refusal, verdict, row, marks] = answer;
    let checked = match (refusal, verdict) {
        (0, 0) => Checked::Pass,
        (0, _) => Checked::Fail(row),
        (number, _) => Checked::Refused { number, row },
    };
    Advice { checked, marks }
}

/// Runs the recipe of a table under the monitor, within a budget of steps and the room that the trace has. Memory and trace
/// are as they are reached; a refused run has changed neither.
pub fn run(
    table: &[u32],
    memory: &mut [u32; VARIABLES],
    marks: u32,
    budget: u32,
    trace: &mut [u32],
) -> Answer {
    let mut answer = [0; RUN_WORDS];
    // SAFETY: each pointer comes from a slice with its length, and no two of those that are written are the same.
    let status = unsafe {
        library::buzorinde_run(
            table.as_ptr(),
            table.len(),
            memory.as_mut_ptr(),
            memory.len(),
            marks,
            budget,
            trace.as_mut_ptr(),
            trace.len(),
            answer.as_mut_ptr(),
            answer.len(),
        )
    };
    debug_assert_eq!(status, 0);
    let [refusal, verdict, row, steps, records, marks, because] = answer;
    let ended = match (refusal, verdict) {
        (0, 0) => Ended::Done,
        (0, 1) => Ended::Stopped { row, because },
        (0, 2) => Ended::Spent,
        (0, _) => Ended::NoRoom(row),
        (number, _) => Ended::Refused { number, row },
    };
    Answer {
        ended,
        steps,
        records,
        marks,
    }
}

/// Reads a recipe's text into a table. The rows are the table's first words, and the words after them keep what they held; a table
/// of `MOST_TABLE_WORDS` has room for every recipe.
pub fn read<'a>(text: &'a [u8], table: &mut [u32]) -> Reading<'a> {
    let mut answer = [0; READ_WORDS];
    // SAFETY: each pointer comes from a slice with its length, and the two that are written are not the same.
    let status = unsafe {
        library::buzorinde_read(
            text.as_ptr(),
            text.len(),
            table.as_mut_ptr(),
            table.len(),
            answer.as_mut_ptr(),
            answer.len(),
        )
    };
    debug_assert_eq!(status, 0);
    let [refusal, _, row, rows, start, size, marks] = answer;
    let read = match refusal {
        0 => Read::Recipe { rows, marks },
        number => Read::Refused { number, row },
    };
    // An empty part is at the end of the text, which for a text of 4 GiB or more no word can say.
    let start = match size {
        0 => text.len(),
        _ => start as usize,
    };
    let part = &text[start..start + size as usize];
    Reading { read, start, part }
}
