//! Demand 3 on the proved functions' answers: what the stations read tells nothing provisional.

use buzorinde::{check, run, Answer, Checked, Ended, VARIABLES};
use independent::run::RECORD_WORDS;
use independent::tree::SETTLED;

use crate::case::Given;
use crate::kinds::{Kind, Tally};

/// What a run has reached.
struct Ran {
    answer: Answer,
    memory: [u32; VARIABLES],
    /// The values of the settled records, in order.
    settled: Vec<u32>,
}

impl Ran {
    fn of(table: &[u32], marks: u32, given: &Given) -> Ran {
        let mut memory = std::array::from_fn(|variable| given.memory[variable]);
        let mut trace = vec![0; given.trace_words];
        let answer = run(table, &mut memory, marks, given.budget, &mut trace);
        let records = trace.chunks(RECORD_WORDS).take(answer.records as usize);
        let settled = records.filter(|record| record[0] == SETTLED);
        Ran {
            answer,
            memory,
            settled: settled.map(|record| record[1]).collect(),
        }
    }

    fn stopped(&self) -> bool {
        matches!(self.answer.ended, Ended::Stopped { .. })
    }
}

/// Two runs of one table from one mark set, and the level check of both.
pub struct Pair {
    one: Ran,
    other: Ran,
    passed: bool,
}

impl Pair {
    /// The memories are equal in every variable that is not marked.
    pub fn of(table: &[u32], marks: u32, one: &Given, other: &Given) -> Pair {
        Pair {
            one: Ran::of(table, marks, one),
            other: Ran::of(table, marks, other),
            passed: check(table, marks).checked == Checked::Pass,
        }
    }

    fn done(&self) -> bool {
        self.one.answer.ended == Ended::Done && self.other.answer.ended == Ended::Done
    }

    /// The sentence of demand 3 that the two runs break.
    pub fn broken(&self) -> Option<String> {
        let (one, other) = (&self.one, &self.other);
        let prefix = one.settled.starts_with(&other.settled);
        if !prefix && !other.settled.starts_with(&one.settled) {
            return Some(format!(
                "the settled records of neither run begin with the other's: {:?}, {:?}",
                one.settled, other.settled
            ));
        }
        if self.passed && (one.stopped() || other.stopped()) {
            return Some("the level check passes, and a run is stopped".to_string());
        }
        if self.done() {
            return self.broken_when_done();
        }
        None
    }

    fn broken_when_done(&self) -> Option<String> {
        let (one, other) = (&self.one, &self.other);
        if one.settled.len() != other.settled.len() {
            return Some("both are done with different settled records".to_string());
        }
        if one.answer.marks != other.answer.marks {
            return Some(format!(
                "both are done with different marks: {}, {}",
                one.answer.marks, other.answer.marks
            ));
        }
        let settled = |variable: &usize| one.answer.marks >> variable & 1 == 0;
        let variable = (0..VARIABLES)
            .filter(settled)
            .find(|variable| one.memory[*variable] != other.memory[*variable])?;
        Some(format!(
            "both are done, and v{variable} is settled with different values: {}, {}",
            one.memory[variable], other.memory[variable]
        ))
    }

    pub fn count(&self, tally: &mut Tally) {
        let (one, other) = (&self.one, &self.other);
        let told = !one.settled.is_empty() && !other.settled.is_empty();
        tally.count(Kind::Pair);
        tally.count_if(told, Kind::PairTold);
        tally.count_if(
            told && one.settled.len() != other.settled.len(),
            Kind::PairPart,
        );
        tally.count_if(self.done(), Kind::PairDone);
        tally.count_if(self.done() && one.memory != other.memory, Kind::PairDiffers);
        tally.count_if(self.passed, Kind::PairPassed);
    }
}
