//! A case: what is asked about a table or a text, and all that is given and lent for it.

use independent::marks::VARIABLES;
use independent::table::ROW_WORDS;
use independent::vectors::Setting;

/// What one run is given, and what it is lent.
#[derive(Clone)]
pub struct Given {
    /// At least 32 words, but where a call is asked about a memory that is too short.
    pub memory: Vec<u32>,
    pub budget: u32,
    pub trace_words: usize,
}

#[derive(Clone)]
pub enum Question {
    Judge,
    Check,
    Run(Given),
    /// Two runs from memories that are equal in every variable that is not marked.
    Pair(Given, Given),
    /// A text is read into the table.
    Read(Vec<u8>),
}

impl Question {
    fn name(&self) -> &'static str {
        match self {
            Question::Judge => "judge",
            Question::Check => "level check",
            Question::Run(_) => "run",
            Question::Pair(..) => "pair of runs",
            Question::Read(_) => "text",
        }
    }

    /// What the words of an answer are.
    pub fn answer_names(&self) -> &'static [&'static str] {
        match self {
            Question::Judge => &["refusal", "verdict", "row"],
            Question::Check => &["refusal", "verdict", "row", "marks"],
            Question::Run(_) | Question::Pair(..) => &[
                "refusal", "verdict", "row", "steps", "records", "marks", "because",
            ],
            Question::Read(_) => &[
                "refusal", "verdict", "row", "rows", "start", "length", "marks",
            ],
        }
    }
}

#[derive(Clone)]
pub struct Case {
    /// As it is before the call, which writes it where a text is read.
    pub table: Vec<u32>,
    pub marks: u32,
    pub question: Question,
    /// The length of the buffer that is lent for the answer.
    pub answer_words: usize,
}

impl Case {
    pub fn givens(&self) -> Vec<&Given> {
        match &self.question {
            Question::Judge | Question::Check | Question::Read(_) => vec![],
            Question::Run(given) => vec![given],
            Question::Pair(one, other) => vec![one, other],
        }
    }

    pub fn givens_mut(&mut self) -> Vec<&mut Given> {
        match &mut self.question {
            Question::Judge | Question::Check | Question::Read(_) => vec![],
            Question::Run(given) => vec![given],
            Question::Pair(one, other) => vec![one, other],
        }
    }

    /// What is asked, and all that is given and lent for it.
    pub fn text(&self) -> String {
        let asked = format!("asked: {}\n\n", self.question.name());
        let given = match &self.question {
            Question::Read(text) => self.reading_text(text),
            _ => self.jobs_text(),
        };
        let answer = format!("lent: {} words for the answer\n", self.answer_words);
        asked + &given + &answer
    }

    fn reading_text(&self, text: &[u8]) -> String {
        let (bytes, table) = (text.len(), self.table.len());
        let text = escaped(text);
        format!("{bytes} bytes: {text}\nlent: {table} words of table\n")
    }

    /// The case as jobs, one for each run, and what a job cannot say.
    fn jobs_text(&self) -> String {
        let mut text = String::new();
        let whole = self.table.len() - self.table.len() % ROW_WORDS;
        let setting = Setting::of_words(self.table[..whole].to_vec()).levels(self.marks);
        if self.givens().is_empty() {
            text += &setting.job_text();
        }
        for given in self.givens() {
            let inputs = setting.clone().inputs(inputs(&given.memory));
            let job = inputs.budget(given.budget).lent(given.trace_words);
            let (memory, trace) = (given.memory.len(), given.trace_words);
            text += &job.job_text();
            text += &format!("lent: {memory} words of memory, {trace} of trace\n\n");
        }
        if whole < self.table.len() {
            text += &format!("words after the last row: {:?}\n", &self.table[whole..]);
        }
        text
    }
}

/// A text between quotes; a byte that stands many times in a row is written once.
fn escaped(text: &[u8]) -> String {
    const MOST: usize = 16;
    let runs = text.chunk_by(|one, next| one == next).map(|run| {
        if run.len() <= MOST {
            return run.escape_ascii().to_string();
        }
        format!("\" \"{}\" {} times \"", run[..1].escape_ascii(), run.len())
    });
    format!("\"{}\"", runs.collect::<String>())
}

/// The variables that a job has to name: "others 0".
fn inputs(memory: &[u32]) -> &[u32] {
    let variables = &memory[..memory.len().min(VARIABLES)];
    let last = variables.iter().rposition(|value| *value != 0);
    &variables[..last.map_or(0, |last| last + 1)]
}
