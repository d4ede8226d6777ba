//! Runs of a recipe: under the monitor, and unwatched.

use crate::marks::{from_bits, to_bits, united, Marks, EMPTY};
use crate::table::{judge, Refusal};
use crate::tree::{Expression, Memory, Statement, SETTLED};

/// 6: "the lent trace exceeds 16,384 words"
pub const MOST_TRACE_WORDS: usize = 16_384;
/// "A record is two trace words: channel, value."
pub const RECORD_WORDS: usize = 2;

#[derive(Clone, Copy, Debug, PartialEq, Eq)]
pub enum Verdict {
    Done = 0,
    Denied = 1,
    BudgetUsed = 2,
    NoRoom = 3,
}

/// "A refused run answers its number and row instead of verdict and place." `because` is a mark
/// set: "the set for verdict 1 (0 when only the context was provisional), and 0 otherwise".
#[derive(Clone, Copy, Debug, PartialEq, Eq)]
pub enum End {
    Refused(Refusal),
    Ended {
        verdict: Verdict,
        place: u32,
        because: u32,
    },
}

/// "Memory, marks, steps and records are those reached." The records are in the trace.
#[derive(Clone, Copy, Debug, PartialEq, Eq)]
pub struct Answer {
    pub end: End,
    pub steps: u32,
    pub memory: Memory,
    pub records: usize,
}

/// All that is known of a run where it ends: its answer, the marks reached, and whether the
/// context was provisional there, which the answer does not say.
pub struct Ending {
    pub answer: Answer,
    pub marks: u32,
    pub context: bool,
}

/// Runs the recipe under the monitor; answers also the marks reached.
pub fn run(
    words: &[u32],
    memory: Memory,
    marks: u32,
    budget: u32,
    trace: &mut [u32],
) -> (Answer, u32) {
    let ending = run_told(words, memory, marks, budget, trace, &mut |_, _| {});
    (ending.answer, ending.marks)
}

/// The same, with someone who is told each expression whose value the run takes, and the memory.
pub fn run_told(
    words: &[u32],
    memory: Memory,
    marks: u32,
    budget: u32,
    trace: &mut [u32],
    told: Told,
) -> Ending {
    let recipe = match accepted(words, trace) {
        Ok(recipe) => recipe,
        Err(refusal) => {
            return Ending {
                answer: refused(refusal, memory),
                marks,
                context: false,
            }
        }
    };
    let mut watched = Watched {
        reached: Reached::start(memory, budget, trace),
        marks: from_bits(marks),
        pile: Vec::new(),
        told,
    };
    let walked = watched.walk(&recipe);
    Ending {
        answer: watched.reached.answer(walked),
        marks: to_bits(&watched.marks),
        context: watched.context(),
    }
}

/// "The unwatched language has the same steps without marks, pile or denial."
pub fn unwatched(words: &[u32], memory: Memory, budget: u32, trace: &mut [u32]) -> Answer {
    let recipe = match accepted(words, trace) {
        Ok(recipe) => recipe,
        Err(refusal) => return refused(refusal, memory),
    };
    let mut reached = Reached::start(memory, budget, trace);
    let walked = walk_unwatched(&recipe, &mut reached);
    reached.answer(walked)
}

/// The refusals of a run: 1 to 5 come before 6.
fn accepted(words: &[u32], trace: &[u32]) -> Result<Statement, Refusal> {
    let recipe = judge(words)?;
    if trace.len() > MOST_TRACE_WORDS {
        return Err(Refusal { number: 6, at: 0 });
    }
    Ok(recipe)
}

/// "with 0 steps and 0 records, returns memory and marks as given and writes no trace word"
fn refused(refusal: Refusal, memory: Memory) -> Answer {
    Answer {
        end: End::Refused(refusal),
        steps: 0,
        memory,
        records: 0,
    }
}

/// Why a walk ends before its recipe does.
struct Stop {
    verdict: Verdict,
    place: u32,
    because: Marks,
}

/// What a run has reached, watched or not.
struct Reached<'a> {
    memory: Memory,
    budget: u32,
    steps: u32,
    trace: &'a mut [u32],
    records: usize,
}

impl Reached<'_> {
    fn start(memory: Memory, budget: u32, trace: &mut [u32]) -> Reached<'_> {
        Reached {
            memory,
            budget,
            steps: 0,
            trace,
            records: 0,
        }
    }

    /// "Before each step of an unfinished run: budget used up gives verdict 2"
    fn need_budget(&self) -> Result<(), Stop> {
        if self.steps == self.budget {
            return Err(Stop {
                verdict: Verdict::BudgetUsed,
                place: 0,
                because: EMPTY,
            });
        }
        Ok(())
    }

    /// "else an output without room gives 3"; "Room is half the word count, rounded down."
    fn need_room(&self, row: u32) -> Result<(), Stop> {
        if self.records == self.trace.len() / RECORD_WORDS {
            return Err(Stop {
                verdict: Verdict::NoRoom,
                place: row,
                because: EMPTY,
            });
        }
        Ok(())
    }

    /// "else the step is taken and counted"
    fn step(&mut self) -> Result<(), Stop> {
        self.need_budget()?;
        self.steps += 1;
        Ok(())
    }

    /// "A record is two trace words: channel, value."
    fn record(&mut self, channel: u32, value: u32) {
        let at = self.records * RECORD_WORDS;
        self.trace[at..at + RECORD_WORDS].copy_from_slice(&[channel, value]);
        self.records += 1;
    }

    /// "A finished run is verdict 0, also when its last step used the budget."
    fn answer(&self, walked: Result<(), Stop>) -> Answer {
        let (verdict, place, because) = match walked {
            Ok(()) => (Verdict::Done, 0, EMPTY),
            Err(stop) => (stop.verdict, stop.place, stop.because),
        };
        let because = to_bits(&because);
        Answer {
            end: End::Ended {
                verdict,
                place,
                because,
            },
            steps: self.steps,
            memory: self.memory,
            records: self.records,
        }
    }
}

/// Who is told an expression whose value is taken, and the memory.
type Told<'a> = &'a mut dyn FnMut(&Expression, &Memory);

/// "The monitor holds the marks and a pile of mark sets, empty at the start."
struct Watched<'a> {
    reached: Reached<'a>,
    marks: Marks,
    pile: Vec<Marks>,
    told: Told<'a>,
}

impl Watched<'_> {
    /// "The run's context is provisional when the pile is not empty."
    fn context(&self) -> bool {
        !self.pile.is_empty()
    }

    /// Whether the expression or the context is provisional.
    fn provisional(&self, expression: &Expression) -> bool {
        self.context() || expression.provisional(&self.marks)
    }

    /// The memory in which the value of this expression is taken now, which is told.
    fn memory_for(&mut self, expression: &Expression) -> &Memory {
        (self.told)(expression, &self.reached.memory);
        &self.reached.memory
    }

    /// "A sequence takes no step of its own." A call for each row of the tree at most is
    /// open at a time: the turns of a loop are iterations.
    fn walk(&mut self, statement: &Statement) -> Result<(), Stop> {
        match statement {
            Statement::Skip => self.reached.step(),
            Statement::Assign(variable, expression) => self.assign(*variable, expression),
            Statement::Sequence(first, second) => {
                self.walk(first)?;
                self.walk(second)
            }
            Statement::If(test, then, otherwise) => self.walk_if(test, then, otherwise),
            Statement::While(test, body) => self.walk_while(test, body),
            Statement::Output(channel, expression, row) => self.output(*channel, expression, *row),
        }
    }

    /// "It is marked if the expression or the context is provisional, and unmarked otherwise."
    fn assign(&mut self, variable: usize, expression: &Expression) -> Result<(), Stop> {
        self.reached.step()?;
        let value = expression.value(self.memory_for(expression));
        self.marks[variable] = self.provisional(expression);
        self.reached.memory[variable] = value;
        Ok(())
    }

    /// "If the test or context is provisional, push the set of all variables that the
    /// branch not taken may assign."
    fn walk_if(
        &mut self,
        test: &Expression,
        then: &Statement,
        otherwise: &Statement,
    ) -> Result<(), Stop> {
        self.reached.step()?;
        let (taken, not_taken) = if test.holds(self.memory_for(test)) {
            (then, otherwise)
        } else {
            (otherwise, then)
        };
        if self.provisional(test) {
            self.pile.push(not_taken.may_assign());
        }
        self.walk(taken)?;
        self.close()
    }

    /// "while, test holds: body, close, then the same while."
    /// "while, test fails: a close."
    fn walk_while(&mut self, test: &Expression, body: &Statement) -> Result<(), Stop> {
        loop {
            self.reached.step()?;
            let holds = test.holds(self.memory_for(test));
            if self.provisional(test) {
                // "push the empty set"; where the test fails, "the set that the body may assign"
                let set = if holds { EMPTY } else { body.may_assign() };
                self.pile.push(set);
            }
            if !holds {
                return self.close();
            }
            self.walk(body)?;
            self.close()?;
        }
    }

    /// "close: if the pile is not empty, pop its top and add that set to the marks."
    fn close(&mut self) -> Result<(), Stop> {
        self.reached.step()?;
        if let Some(top) = self.pile.pop() {
            self.marks = united(&self.marks, &top);
        }
        Ok(())
    }

    /// "Output on channel 0: a record if expression and context are settled; otherwise the
    /// monitor stops the run", because of what the expression reads. The budget comes first,
    /// then the denial, then the room.
    fn output(&mut self, channel: u32, expression: &Expression, row: u32) -> Result<(), Stop> {
        self.reached.need_budget()?;
        if channel == SETTLED && self.provisional(expression) {
            return Err(Stop {
                verdict: Verdict::Denied,
                place: row,
                because: expression.level(&self.marks),
            });
        }
        self.reached.need_room(row)?;
        self.reached.step()?;
        let value = expression.value(self.memory_for(expression));
        self.reached.record(channel, value);
        Ok(())
    }
}

/// The same steps; a close changes nothing, and no output is denied.
fn walk_unwatched(statement: &Statement, reached: &mut Reached) -> Result<(), Stop> {
    match statement {
        Statement::Skip => reached.step()?,
        Statement::Assign(variable, expression) => {
            reached.step()?;
            reached.memory[*variable] = expression.value(&reached.memory);
        }
        Statement::Sequence(first, second) => {
            walk_unwatched(first, reached)?;
            walk_unwatched(second, reached)?;
        }
        Statement::If(test, then, otherwise) => {
            reached.step()?;
            let holds = test.holds(&reached.memory);
            walk_unwatched(if holds { then } else { otherwise }, reached)?;
            reached.step()?;
        }
        Statement::While(test, body) => {
            reached.step()?;
            while test.holds(&reached.memory) {
                walk_unwatched(body, reached)?;
                reached.step()?;
                reached.step()?;
            }
            reached.step()?;
        }
        Statement::Output(channel, expression, row) => {
            reached.need_budget()?;
            reached.need_room(*row)?;
            reached.step()?;
            reached.record(*channel, expression.value(&reached.memory));
        }
    }
    Ok(())
}
