//! All tests in one program: values stated by hand, readings, properties at random.

mod checks;
mod document;
mod program;
mod properties;
mod reader;
mod refusals;
mod rows;
mod runs;
mod texts;
mod texts_random;
mod texts_searched;
mod vectors;

use independent::recipes::{lay, Part};
use independent::run::{run, Answer, End, Verdict};
use independent::table::{Refusal, OUTPUT, ROW_WORDS};

/// A run's whole answer, with what it recorded.
struct Ran {
    answer: Answer,
    marks: u32,
    records: Vec<(u32, u32)>,
}

impl Ran {
    /// Verdict, place and because.
    fn ended(&self) -> (u32, u32, u32) {
        match self.answer.end {
            End::Ended {
                verdict,
                place,
                because,
            } => (verdict as u32, place, because),
            End::Refused(refusal) => panic!("refused: {refusal:?}"),
        }
    }

    fn verdict(&self) -> u32 {
        self.ended().0
    }

    fn place(&self) -> u32 {
        self.ended().1
    }

    fn because(&self) -> u32 {
        self.ended().2
    }

    fn done(&self) -> bool {
        self.verdict() == Verdict::Done as u32
    }

    /// "Settled records, in order, are what the stations read."
    fn settled_records(&self) -> Vec<u32> {
        let settled = self.records.iter().filter(|(channel, _)| *channel == 0);
        settled.map(|(_, value)| *value).collect()
    }
}

/// What a run is given, apart from the recipe: "Unless stated, v0 alone is marked, every
/// variable is 0, budget 100, room 8."
#[derive(Clone, Copy)]
struct Given {
    memory: [u32; 32],
    marks: u32,
    budget: u32,
    room: usize,
}

const GIVEN: Given = Given {
    memory: [0; 32],
    marks: 1,
    budget: 100,
    room: 8,
};

impl Given {
    fn marks(self, marks: u32) -> Given {
        Given { marks, ..self }
    }

    fn budget(self, budget: u32) -> Given {
        Given { budget, ..self }
    }

    fn room(self, room: usize) -> Given {
        Given { room, ..self }
    }
}

/// As given, with values for v0 onward.
fn inputs(values: &[u32]) -> Given {
    let mut given = GIVEN;
    given.memory[..values.len()].copy_from_slice(values);
    given
}

fn run_words(words: &[u32], given: Given) -> Ran {
    let mut trace = vec![u32::MAX; given.room * 2];
    let (answer, marks) = run(words, given.memory, given.marks, given.budget, &mut trace);
    let (written, kept) = trace.split_at(answer.records * 2);
    assert!(kept.iter().all(|word| *word == u32::MAX));
    let records = written.chunks(2).map(|record| (record[0], record[1]));
    Ran {
        answer,
        marks,
        records: records.collect(),
    }
}

fn run_part(part: &Part, given: Given) -> Ran {
    run_words(&lay(part), given)
}

/// The rows of the outputs in a table.
fn output_rows(words: &[u32]) -> Vec<u32> {
    let rows = words.chunks(ROW_WORDS).enumerate();
    rows.filter(|(_, row)| row[0] == OUTPUT)
        .map(|(at, _)| at as u32)
        .collect()
}

fn refusal(number: u32, at: u32) -> Refusal {
    Refusal { number, at }
}
