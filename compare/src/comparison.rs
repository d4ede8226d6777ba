//! The comparison on one random table: every function, with budgets, rooms and buffers at and
//! around where its answer changes, and pairs of memories.

use buzorinde::{CHECK_WORDS, JUDGE_WORDS, RUN_WORDS};
use independent::marks::VARIABLES;
use independent::random::Random;
use independent::run::{self, run_told, Ending, Verdict, MOST_TRACE_WORDS, RECORD_WORDS};
use independent::table::{ROW_WORDS, WHILE};
use independent::tree::{Expression, Memory};

use crate::calls::{
    by_independent, by_library, End, Left, ANSWERED, ANSWER_TOO_SHORT, MEMORY_TOO_SHORT,
};
use crate::case::{Case, Given, Question};
use crate::damages::damaged;
use crate::kinds::{refused_by, Kind, Tally};
use crate::pairs::Pair;
use crate::tables::{table, Names, Table};

const DONE: u32 = Verdict::Done as u32;
const DENIED: u32 = Verdict::Denied as u32;
const SPENT: u32 = Verdict::BudgetUsed as u32;
const NO_ROOM: u32 = Verdict::NoRoom as u32;

/// Why a case is one that a comparison must not meet: both answers, or the demand that is broken.
pub fn difference(case: &Case) -> Option<String> {
    if let Question::Pair(one, other) = &case.question {
        let pair = Pair::of(&case.table, case.marks, one, other);
        return pair.broken().filter(|_| agree(case.marks, one, other));
    }
    let (proved, independent) = (by_library(case), by_independent(case));
    (proved != independent).then(|| {
        let (proved, independent) = (left_text(case, &proved), left_text(case, &independent));
        format!("proved:\n{proved}independent:\n{independent}")
    })
}

/// Whether two memories are equal in every variable that is not marked; a case that is made
/// smaller may be no pair any more.
fn agree(marks: u32, one: &Given, other: &Given) -> bool {
    let mut settled = (0..VARIABLES).filter(|variable| marks >> variable & 1 == 0);
    settled.all(|variable| one.memory[variable] == other.memory[variable])
}

fn left_text(case: &Case, left: &Left) -> String {
    let mut text = format!("  status {}", left.status);
    if left.status == ANSWERED {
        for (name, word) in case.question.answer_names().iter().zip(&left.answer) {
            text += &format!(", {name} {word}");
        }
    }
    text += &format!("\n  answer's words {:?}\n", left.answer);
    match case.question {
        Question::Run(_) => {
            let trace = words_text(&left.trace);
            text += &format!("  memory {:?}\n  trace {trace}\n", left.memory);
        }
        Question::Read(_) => text += &format!("  table {}\n", words_text(&left.table)),
        _ => {}
    }
    text
}

/// Many words are cut, with a sum over all of them that tells two lists apart.
fn words_text(words: &[u32]) -> String {
    const SHOWN: usize = 64;
    if words.len() <= SHOWN {
        return format!("{words:?}");
    }
    let sum = words.iter().fold(0u64, |sum, word| {
        sum.wrapping_mul(31).wrapping_add(u64::from(*word))
    });
    format!("{:?} and so on, sum {sum:x}", &words[..SHOWN])
}

/// Compares one call; answers what both leave.
pub fn compared(case: Case, tally: &mut Tally) -> Result<Left, Box<Case>> {
    let left = by_library(&case);
    if left != by_independent(&case) {
        return Err(Box::new(case));
    }
    tally.comparisons += 1;
    Ok(left)
}

/// Compares on one random table; answers the first case with a difference.
pub fn compare_on_a_table(random: &mut Random, tally: &mut Tally) -> Result<(), Box<Case>> {
    let names = Names::random(random);
    let mut table = table(random);
    if random.percent(40) {
        table = damaged(random, table);
    }
    names.of_table(&mut table.words);
    let marks = names.of_marks(random.marks());
    let mut on_table = OnTable {
        words: table.words.clone(),
        marks,
        random,
        tally,
    };
    if on_table.judged(&table)? {
        on_table.accepted()
    } else {
        on_table.refused()
    }
}

struct OnTable<'a> {
    words: Vec<u32>,
    marks: u32,
    random: &'a mut Random,
    tally: &'a mut Tally,
}

impl OnTable<'_> {
    fn call(&mut self, question: Question, answer_words: usize) -> Result<Left, Box<Case>> {
        let case = Case {
            table: self.words.clone(),
            marks: self.marks,
            question,
            answer_words,
        };
        compared(case, self.tally)
    }

    /// Judge and level check; answers whether the table is accepted.
    fn judged(&mut self, table: &Table) -> Result<bool, Box<Case>> {
        let judged = self.call(Question::Judge, JUDGE_WORDS)?;
        self.tally
            .count_if(judged.refusal() == table.number, table.kind);
        let answer = match judged.refusal() {
            0 => Kind::Accepted,
            number => refused_by(number),
        };
        self.tally.count(answer);
        let checked = self.call(Question::Check, CHECK_WORDS)?;
        self.tally
            .count(match (checked.refusal(), checked.verdict()) {
                (0, 0) => Kind::Pass,
                (0, _) => Kind::Fail,
                _ => Kind::CheckRefused,
            });
        Ok(judged.refusal() == 0)
    }

    fn refused(&mut self) -> Result<(), Box<Case>> {
        let given = Given {
            memory: self.random.memory().to_vec(),
            budget: self.random.number(),
            trace_words: self.trace_words(),
        };
        self.run(&given)?;
        self.other_buffers(given)
    }

    /// Runs to an end that a large budget and room allow, then around that end, and beside
    /// another memory.
    fn accepted(&mut self) -> Result<(), Box<Case>> {
        let memory = self.random.memory().to_vec();
        let whole = Given {
            memory,
            budget: self.large_budget(),
            trace_words: MOST_TRACE_WORDS,
        };
        let end = self.run(&whole)?.end();
        self.count_loops(&end);
        self.count_told(&whole);
        let mut known = (whole.clone(), end);
        for _ in 0..6 {
            let given = self.around(&known.0, &known.1);
            let left = self.run(&given)?;
            self.count_around(&known.1, &given, &left);
            known = if left.refusal() == 0 && self.random.percent(30) {
                (given, left.end())
            } else {
                (whole.clone(), end)
            };
        }
        let given = self.around(&whole, &end);
        self.other_buffers(given)?;
        self.pair(&whole, &end)
    }

    /// Enough for most recipes that end; at times enough to fill the longest trace.
    fn large_budget(&mut self) -> u32 {
        self.random
            .one_of(&[500, 500, 500, 500, 500, 3_000, 3_000, 3_000, 3_000, 60_000])
    }

    /// The same run with its budget or its trace at or around where it is known to end.
    fn around(&mut self, known: &Given, end: &End) -> Given {
        let (steps, enough) = (end.steps, end.filled);
        let mut given = known.clone();
        given.trace_words = enough;
        match self.random.below(12) {
            0 => given.budget = steps,
            1 => given.budget = steps.saturating_sub(1),
            2 => given.budget = steps + 1,
            3 => given.budget = 0,
            4 => given.budget = self.random.below(steps + 1),
            // Without a known end the highest budget would take too long.
            5 if end.verdict != SPENT => given.budget = u32::MAX,
            6 => given.trace_words = enough.saturating_sub(1),
            7 => given.trace_words = enough + 1,
            8 => given.trace_words = enough.saturating_sub(RECORD_WORDS),
            9 => given.trace_words = 0,
            10 => given.trace_words = MOST_TRACE_WORDS + 1,
            _ => given.trace_words = self.random.below(enough as u32 + 1) as usize,
        }
        given
    }

    /// Any length of trace, also ones that 6 refuses.
    fn trace_words(&mut self) -> usize {
        let some = self.random.below(64) as usize;
        self.random
            .one_of(&[0, 1, some, some, MOST_TRACE_WORDS, MOST_TRACE_WORDS + 1])
    }

    fn run(&mut self, given: &Given) -> Result<Left, Box<Case>> {
        let left = self.call(Question::Run(given.clone()), RUN_WORDS)?;
        self.count_run(given, &left);
        Ok(left)
    }

    /// The same calls with buffers that are too short, or longer than needed.
    fn other_buffers(&mut self, mut given: Given) -> Result<(), Box<Case>> {
        let length = self.random.below(VARIABLES as u32 + 8) as usize;
        given.memory.resize(length, 0xE000_0000);
        let (question, needed) = match self.random.below(6) {
            0 => (Question::Judge, JUDGE_WORDS),
            1 => (Question::Check, CHECK_WORDS),
            _ => (Question::Run(given), RUN_WORDS),
        };
        let answer_words = self.random.below(needed as u32 + 6) as usize;
        let left = self.call(question, answer_words)?;
        self.tally
            .count_if(left.status == ANSWER_TOO_SHORT, Kind::AnswerTooShort);
        self.tally
            .count_if(left.status == MEMORY_TOO_SHORT, Kind::MemoryTooShort);
        let answered = left.status == ANSWERED;
        self.tally
            .count_if(answered && answer_words > needed, Kind::AnswerLonger);
        self.tally.count_if(
            answered && left.memory.len() > VARIABLES,
            Kind::MemoryLonger,
        );
        Ok(())
    }

    /// A run beside one from a memory that is equal in every variable that is not marked.
    fn pair(&mut self, whole: &Given, end: &End) -> Result<(), Box<Case>> {
        let one = self.whole_or_around(whole, end);
        let mut other = self.whole_or_around(whole, end);
        for (variable, value) in other.memory.iter_mut().enumerate() {
            if self.marks >> variable & 1 == 1 {
                *value = self.random.value();
            }
        }
        // The end of the other run is not known.
        other.budget = other.budget.min(whole.budget);
        let pair = Pair::of(&self.words, self.marks, &one, &other);
        if pair.broken().is_some() {
            return Err(Box::new(Case {
                table: self.words.clone(),
                marks: self.marks,
                question: Question::Pair(one, other),
                answer_words: RUN_WORDS,
            }));
        }
        pair.count(self.tally);
        Ok(())
    }

    fn whole_or_around(&mut self, whole: &Given, end: &End) -> Given {
        if self.random.percent(60) {
            return whole.clone();
        }
        self.around(whole, end)
    }

    fn count_run(&mut self, given: &Given, left: &Left) {
        let tally = &mut *self.tally;
        tally.count_if(given.trace_words == MOST_TRACE_WORDS, Kind::LongestTrace);
        match left.refusal() {
            0 => count_end(tally, given, &left.end()),
            6 => tally.count(Kind::Refused6),
            _ => tally.count_if(given.trace_words > MOST_TRACE_WORDS, Kind::RefusedBefore6),
        }
    }

    fn count_loops(&mut self, end: &End) {
        let looped = self.words.chunks(ROW_WORDS).any(|row| row[0] == WHILE);
        self.tally
            .count_if(looped && end.verdict == DONE, Kind::LoopEnds);
        self.tally
            .count_if(looped && end.verdict == SPENT, Kind::LoopEndless);
    }

    /// What the answer does not say of a run: the quotients by 0 that it takes, and whether the
    /// context was provisional where it is stopped.
    fn count_told(&mut self, given: &Given) {
        let memory = std::array::from_fn(|variable| given.memory[variable]);
        let mut trace = vec![0; given.trace_words];
        let (mut of_zero, mut of_another) = (false, false);
        let mut told = |expression: &Expression, memory: &Memory| {
            let dividends = expression.divided_by_zero(memory);
            of_zero |= dividends.contains(&0);
            of_another |= dividends.iter().any(|dividend| *dividend != 0);
        };
        let ending = run_told(
            &self.words,
            memory,
            self.marks,
            given.budget,
            &mut trace,
            &mut told,
        );
        self.tally.count_if(of_zero, Kind::ZeroByZero);
        self.tally.count_if(of_another, Kind::OtherByZero);
        count_spoiled(self.tally, &ending);
    }

    /// Budgets around the known end of a run.
    fn count_around(&mut self, end: &End, given: &Given, left: &Left) {
        if left.refusal() != 0 {
            return;
        }
        let tally = &mut *self.tally;
        let (budget, steps) = (given.budget, end.steps);
        match (end.verdict, left.verdict()) {
            (DONE, DONE) => {
                tally.count_if(budget == steps, Kind::DoneAtBudget);
                tally.count_if(budget == steps + 1, Kind::DoneToSpare);
                tally.count_if(budget == u32::MAX, Kind::HighestBudget);
            }
            (DONE, SPENT) => tally.count_if(budget + 1 == steps, Kind::SpentBeforeEnd),
            (DENIED, SPENT) => tally.count_if(budget == steps, Kind::SpentBeforeDenied),
            (DENIED, DENIED) => {
                tally.count_if(budget == steps + 1, Kind::DeniedToSpare);
                let full = given.trace_words == end.filled;
                tally.count_if(full, Kind::DeniedWithoutRoom);
            }
            (NO_ROOM, SPENT) => tally.count_if(budget == steps, Kind::SpentBeforeNoRoom),
            (NO_ROOM, NO_ROOM) => tally.count_if(budget == steps + 1, Kind::NoRoomToSpare),
            _ => {}
        }
        tally.count_if(budget == 0, Kind::NoBudget);
    }
}

/// What is provisional where a run is stopped: the expression, the context, or both.
fn count_spoiled(tally: &mut Tally, ending: &Ending) {
    let run::End::Ended {
        verdict: Verdict::Denied,
        because,
        ..
    } = ending.answer.end
    else {
        return;
    };
    tally.count(match (because.count_ones(), ending.context) {
        (0, _) => Kind::SpoiledByContext,
        (1, false) => Kind::SpoiledByOne,
        (_, false) => Kind::SpoiledBySeveral,
        (_, true) => Kind::SpoiledByBoth,
    });
}

fn count_end(tally: &mut Tally, given: &Given, end: &End) {
    let (filled, lent) = (end.filled, given.trace_words);
    match end.verdict {
        DONE => {
            tally.count(Kind::Done);
            tally.count_if(filled > 0 && lent == filled, Kind::RoomFilled);
            tally.count_if(filled > 0 && lent == filled + 1, Kind::OddWordKept);
        }
        DENIED => tally.count(Kind::Stopped),
        SPENT => tally.count(Kind::Spent),
        _ => {
            tally.count(Kind::NoRoom);
            tally.count_if(lent == filled + 1, Kind::OneWordShort);
            tally.count_if(lent == 0, Kind::NoTrace);
            tally.count_if(filled == MOST_TRACE_WORDS, Kind::LongestFilled);
        }
    }
}
