//! The number stream for the program `cases`, and the lines that it must write: the cases of the
//! vectors, one number a line, and their answers, one case a line.

use std::fs;
use std::io;
use std::path::Path;

use crate::case::answer;
use crate::vectors::{all, Form, Vector};

/// Judge cases with at most so many words are in the stream.
const MOST_JUDGED_WORDS: usize = 64;
/// Run cases whose table has at most so many words, and whose trace has at most so many.
const MOST_RUN_WORDS: usize = 128;
const MOST_TRACE_WORDS: usize = 64;
/// Level check cases with at most so many words.
const MOST_CHECKED_WORDS: usize = 160;
/// Cases of rows whose table has at most so many words.
const MOST_ROWS_WORDS: usize = 512;
/// Longer cases that are in the stream all the same: a limit met, or just exceeded.
const LONGER: [&str; 5] = [
    "run-because-all-variables",
    "run-k-16384-trace-words",
    "run-k-16385-trace-words",
    "run-refused-5-before-6",
    "rows-k-512-rows",
];
/// Judge cases of the limits of tables: all are in the stream.
const LIMITS: &str = "judge-k-";
/// Where `because` stands among a run's numbers: after whether it was refused, verdict and place.
const BECAUSE: usize = 3;

/// What the program reads, and what it must write.
pub struct Streams {
    pub stdin: String,
    pub stdout: String,
}

pub fn streams() -> Streams {
    let mut streams = Streams {
        stdin: String::new(),
        stdout: String::new(),
    };
    for vector in all() {
        let Some(case) = Numbered::of(&vector) else {
            continue;
        };
        for number in &case.question {
            streams.stdin += &format!("{number}\n");
        }
        for line in &case.answer {
            streams.stdout += &(line.join(" ") + "\n");
        }
    }
    streams.stdin += "0\n";
    streams
}

/// Writes `stdin` and `stdout` below `folder`.
pub fn write(folder: &Path) -> io::Result<()> {
    let streams = streams();
    fs::create_dir_all(folder)?;
    fs::write(folder.join("stdin"), streams.stdin)?;
    fs::write(folder.join("stdout"), streams.stdout)
}

/// A case as numbers, and the lines of its answer.
struct Numbered {
    question: Vec<String>,
    answer: Vec<Vec<String>>,
}

impl Numbered {
    /// The case as numbers, if it is one of the stream's.
    fn of(vector: &Vector) -> Option<Numbered> {
        if vector.form != Form::Case {
            return None;
        }
        let asked = Lines::of(&vector.input);
        let answered = Lines::of(answer(&vector.input).ok()?.as_bytes());
        let longer = LONGER.contains(&vector.name.as_str());
        let (code, answer) = match asked.word("ask") {
            "judge" => {
                let limit = longer || vector.name.starts_with(LIMITS);
                if !limit && asked.count("count") > MOST_JUDGED_WORDS {
                    return None;
                }
                ("1", vec![answered.numbers()])
            }
            "run" => {
                let short = asked.count("count") <= MOST_RUN_WORDS
                    && asked.count("lent") <= MOST_TRACE_WORDS;
                if !short && !longer {
                    return None;
                }
                ("2", vec![run_numbers(&answered)])
            }
            "operator" => ("3", vec![answered.numbers()]),
            "levels" => {
                if asked.count("count") > MOST_CHECKED_WORDS {
                    return None;
                }
                ("4", vec![told_numbers(&answered)])
            }
            "rows" => {
                if !longer && asked.count("count") > MOST_ROWS_WORDS {
                    return None;
                }
                ("5", rows_numbers(&answered))
            }
            "marks" => ("6", vec![answered.numbers()]),
            _ => return None,
        };
        let mut question = vec![code.to_string()];
        question.extend(asked.without("ask").numbers());
        Some(Numbered { question, answer })
    }
}

/// Whether it was refused, then the answer.
fn told_numbers(answered: &Lines) -> Vec<String> {
    let refused = answered.0[0].0 == "refused";
    let mut numbers = vec![u32::from(refused).to_string()];
    numbers.extend(answered.numbers());
    numbers
}

/// The same without the trace's length; of a long trace, in place of its words, their sum. A
/// refused run has no `because`, and its line has 0 there.
fn run_numbers(answered: &Lines) -> Vec<String> {
    let mut numbers = told_numbers(&answered.without("lent").without("trace"));
    if answered.word("because").is_empty() {
        numbers.insert(BECAUSE, "0".to_string());
    }
    let trace = answered.only("trace").numbers();
    if trace.len() > MOST_TRACE_WORDS {
        numbers.push(sum(&trace).to_string());
    } else {
        numbers.extend(trace);
    }
    numbers
}

/// A line for each row: whether the table has it, its words; then value and level, and what it
/// may assign, each after a 0, or after a 1 the refusal.
fn rows_numbers(answered: &Lines) -> Vec<Vec<String>> {
    let rows = answered.0.chunk_by(|_, (key, _)| key != "has");
    let numbers = rows.map(|row| {
        let told = row.iter().flat_map(|(key, value)| {
            let flag = match key.as_str() {
                "value" | "assigned" => Some("0"),
                "refused" => Some("1"),
                _ => None,
            };
            flag.into_iter().chain(value.split(','))
        });
        told.map(str::to_string).collect()
    });
    numbers.collect()
}

/// The sum of all words, the last one once and each other one 31 times what the next one
/// counts, modulo 2^32: a word that is changed or moved shows in it.
fn sum(trace: &[String]) -> u32 {
    let words = trace.iter().rev().map(|word| word.parse().unwrap_or(0));
    let weights = std::iter::successors(Some(1u32), |weight| Some(weight.wrapping_mul(31)));
    words.zip(weights).fold(0, |sum: u32, (word, weight)| {
        sum.wrapping_add(weight.wrapping_mul(word))
    })
}

/// The lines `key=value` of a case or of an answer.
struct Lines(Vec<(String, String)>);

impl Lines {
    fn of(text: &[u8]) -> Lines {
        let text = String::from_utf8_lossy(text);
        let lines = text.lines().filter_map(|line| line.split_once('='));
        Lines(lines.map(|(k, v)| (k.to_string(), v.to_string())).collect())
    }

    fn kept(&self, keep: impl Fn(&str) -> bool) -> Lines {
        let kept = self.0.iter().filter(|(key, _)| keep(key));
        Lines(kept.cloned().collect())
    }

    fn only(&self, key: &str) -> Lines {
        self.kept(|other| other == key)
    }

    fn without(&self, key: &str) -> Lines {
        self.kept(|other| other != key)
    }

    fn word(&self, key: &str) -> &str {
        let found = self.0.iter().find(|(other, _)| other == key);
        found.map_or("", |(_, value)| value)
    }

    fn count(&self, key: &str) -> usize {
        self.word(key).parse().unwrap_or(0)
    }

    /// Every number, in order.
    fn numbers(&self) -> Vec<String> {
        let values = self.0.iter().flat_map(|(_, value)| value.split(','));
        let numbers = values.filter(|number| !number.is_empty());
        numbers.map(str::to_string).collect()
    }
}
