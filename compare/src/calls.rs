//! One call of a function for C: what the proved library leaves, and what the independent
//! implementation and the header say that it leaves.

use buzorinde::{library, CHECK_WORDS, JUDGE_WORDS, READ_WORDS, RUN_WORDS};
use independent::levels::{levels_by, Method, Outcome};
use independent::marks::VARIABLES;
use independent::run::{self, RECORD_WORDS};
use independent::table::{judge, MOST_ROWS, ROW_WORDS};
use independent::text::read;
use independent::tree::Memory;

use crate::case::{Case, Given, Question};

/// What the header says that a call returns.
pub const ANSWERED: u32 = 0;
pub const ANSWER_TOO_SHORT: u32 = 1;
pub const MEMORY_TOO_SHORT: u32 = 2;

/// The status of a call, and all that it was lent, afterwards.
#[derive(Clone, PartialEq, Eq)]
pub struct Left {
    pub status: u32,
    pub table: Vec<u32>,
    pub answer: Vec<u32>,
    pub memory: Vec<u32>,
    pub trace: Vec<u32>,
}

impl Left {
    /// Buffers before the call. Each word has a content of its own, so that one that is kept
    /// can be told from one that is written.
    fn before(case: &Case) -> Left {
        let given = case.givens().into_iter().next();
        Left {
            status: ANSWERED,
            table: case.table.clone(),
            answer: pattern(0xA000_0000, case.answer_words),
            memory: given.map_or(vec![], |given| given.memory.clone()),
            trace: pattern(0x7000_0000, given.map_or(0, |given| given.trace_words)),
        }
    }

    /// The number that refused the call; 0 where none did.
    pub fn refusal(&self) -> u32 {
        self.answer[0]
    }

    pub fn verdict(&self) -> u32 {
        self.answer[1]
    }

    /// How many rows a text has.
    pub fn rows(&self) -> usize {
        self.answer[3] as usize
    }

    /// Whether a word of a text is handed back, and not the empty part at its end.
    pub fn hands_back_a_word(&self) -> bool {
        self.answer[5] > 0
    }

    /// The start marks of a text.
    pub fn start_marks(&self) -> u32 {
        self.answer[6]
    }

    /// Where a run ended that was not refused.
    pub fn end(&self) -> End {
        End {
            verdict: self.verdict(),
            steps: self.answer[3],
            filled: self.answer[4] as usize * RECORD_WORDS,
        }
    }
}

/// The verdict of a run, its steps, and the words that its records take.
#[derive(Clone, Copy)]
pub struct End {
    pub verdict: u32,
    pub steps: u32,
    pub filled: usize,
}

pub fn pattern(first: u32, words: usize) -> Vec<u32> {
    (0..words as u32).map(|at| first + at).collect()
}

/// What the proved function leaves; of a pair, the first run.
pub fn by_library(case: &Case) -> Left {
    let mut left = Left::before(case);
    left.status = match &case.question {
        Question::Judge => library_judge(&left.table, &mut left.answer),
        Question::Check => library_check(&left.table, case.marks, &mut left.answer),
        Question::Run(given) | Question::Pair(given, _) => library_run(case, given, &mut left),
        Question::Read(text) => library_read(text, &mut left.table, &mut left.answer),
    };
    left
}

fn library_judge(table: &[u32], answer: &mut [u32]) -> u32 {
    // SAFETY: each pointer comes from a slice with its length, and only `answer` is written.
    unsafe {
        library::buzorinde_judge(
            table.as_ptr(),
            table.len(),
            answer.as_mut_ptr(),
            answer.len(),
        )
    }
}

fn library_check(table: &[u32], marks: u32, answer: &mut [u32]) -> u32 {
    // SAFETY: each pointer comes from a slice with its length, and only `answer` is written.
    unsafe {
        library::buzorinde_check(
            table.as_ptr(),
            table.len(),
            marks,
            answer.as_mut_ptr(),
            answer.len(),
        )
    }
}

fn library_run(case: &Case, given: &Given, left: &mut Left) -> u32 {
    // SAFETY: each pointer comes from a slice with its length, and no two slices overlap.
    unsafe {
        library::buzorinde_run(
            left.table.as_ptr(),
            left.table.len(),
            left.memory.as_mut_ptr(),
            left.memory.len(),
            case.marks,
            given.budget,
            left.trace.as_mut_ptr(),
            left.trace.len(),
            left.answer.as_mut_ptr(),
            left.answer.len(),
        )
    }
}

fn library_read(text: &[u8], table: &mut [u32], answer: &mut [u32]) -> u32 {
    // SAFETY: each pointer comes from a slice with its length, and no two slices overlap.
    unsafe {
        library::buzorinde_read(
            text.as_ptr(),
            text.len(),
            table.as_mut_ptr(),
            table.len(),
            answer.as_mut_ptr(),
            answer.len(),
        )
    }
}

/// What the independent implementation answers, laid out as the header says.
pub fn by_independent(case: &Case) -> Left {
    let mut left = Left::before(case);
    left.status = too_short(case);
    if left.status != ANSWERED {
        return left;
    }
    match &case.question {
        Question::Judge => lay(&mut left.answer, &judge_words(&case.table)),
        Question::Check => lay(&mut left.answer, &check_words(&case.table, case.marks)),
        Question::Run(given) | Question::Pair(given, _) => independent_run(case, given, &mut left),
        Question::Read(text) => {
            let words = read_words(text, &mut left.table);
            lay(&mut left.answer, &words);
        }
    }
    left
}

/// "A buffer that is too short is refused by a status, and then nothing at all has changed."
fn too_short(case: &Case) -> u32 {
    if case.answer_words < case.question.answer_names().len() {
        return ANSWER_TOO_SHORT;
    }
    if case
        .givens()
        .iter()
        .any(|given| given.memory.len() < VARIABLES)
    {
        return MEMORY_TOO_SHORT;
    }
    ANSWERED
}

/// "Its answer is laid over the first words of the buffer."
fn lay(buffer: &mut [u32], words: &[u32]) {
    buffer[..words.len()].copy_from_slice(words);
}

fn judge_words(table: &[u32]) -> [u32; JUDGE_WORDS] {
    match judge(table) {
        Ok(_) => [0, 0, 0],
        Err(refusal) => [refusal.number, 0, refusal.at],
    }
}

fn check_words(table: &[u32], marks: u32) -> [u32; CHECK_WORDS] {
    // Trying all candidate sets takes long where each try walks a long body.
    let long = table.len() > MOST_ROWS / 4 * ROW_WORDS;
    let method = if long { Method::Rounds } else { Method::BySize };
    match levels_by(method, table, marks) {
        (Outcome::Refused(refusal), marks) => [refusal.number, 0, refusal.at, marks],
        (Outcome::Pass, marks) => [0, 0, 0, marks],
        (Outcome::Fail { row }, marks) => [0, 1, row, marks],
    }
}

fn read_words(text: &[u8], table: &mut [u32]) -> [u32; READ_WORDS] {
    let reading = read(text, table);
    [
        reading.refused,
        0,
        reading.at,
        reading.rows as u32,
        reading.start as u32,
        reading.length as u32,
        reading.marks,
    ]
}

fn independent_run(case: &Case, given: &Given, left: &mut Left) {
    let variables = &mut left.memory[..VARIABLES];
    let memory: Memory = std::array::from_fn(|variable| variables[variable]);
    let (answer, marks) = run::run(
        &case.table,
        memory,
        case.marks,
        given.budget,
        &mut left.trace,
    );
    variables.copy_from_slice(&answer.memory);
    let [refusal, verdict, row, because] = match answer.end {
        run::End::Refused(refusal) => [refusal.number, 0, refusal.at, 0],
        run::End::Ended {
            verdict,
            place,
            because,
        } => [0, verdict as u32, place, because],
    };
    let (steps, records) = (answer.steps, answer.records as u32);
    let words: [u32; RUN_WORDS] = [refusal, verdict, row, steps, records, marks, because];
    lay(&mut left.answer, &words);
}
