//! The job reader and the report writer.

use crate::marks::{from_bits, marked, VARIABLES};
use crate::run::{run, Answer, End, RECORD_WORDS};
use crate::table::{Refusal, MOST_ROWS, ROW_WORDS};
use crate::tree::Memory;

/// 7: "a job line lacks the required form"
pub const LACKS_FORM: u32 = 7;
/// 8: "a job number is out of range"
pub const OUT_OF_RANGE: u32 = 8;
/// 9: "the job exceeds 32,768 bytes"
pub const MOST_JOB_BYTES: usize = 32_768;
/// "`room=` (records, 0 to 8192)"
const MOST_ROOM: u32 = 8_192;

pub struct Job {
    pub budget: u32,
    pub room: u32,
    pub levels: u32,
    pub memory: Memory,
    pub words: Vec<u32>,
}

/// The lines of an input, taken one after the other.
pub struct Lines<'a> {
    rest: &'a [u8],
    taken: u32,
}

impl<'a> Lines<'a> {
    pub fn of(input: &'a [u8]) -> Lines<'a> {
        Lines {
            rest: input,
            taken: 0,
        }
    }

    /// "a missing line is 7 at the number it would have"; "a last line without LF is 7"
    fn take(&mut self) -> Result<&'a [u8], Refusal> {
        let end = self.rest.iter().position(|byte| *byte == b'\n');
        let end = end.ok_or(self.refusal(LACKS_FORM))?;
        let line = &self.rest[..end];
        self.rest = &self.rest[end + 1..];
        self.taken += 1;
        Ok(line)
    }

    /// A refusal of the next line; "lines count from 1".
    fn refusal(&self, number: u32) -> Refusal {
        Refusal {
            number,
            at: self.taken + 1,
        }
    }

    /// Takes a line `key=` with so many numbers, none over `most`: "7 before 8".
    pub fn numbers(&mut self, key: &str, count: usize, most: u32) -> Result<Vec<u32>, Refusal> {
        let lacks_form = self.refusal(LACKS_FORM);
        let out_of_range = self.refusal(OUT_OF_RANGE);
        let line = self.take()?;
        let list = value_of(line, key).ok_or(lacks_form)?;
        let fields = fields(list);
        if fields.len() != count || !fields.iter().all(|field| well_formed(field)) {
            return Err(lacks_form);
        }
        let numbers: Option<Vec<u32>> = fields.iter().map(|field| number(field)).collect();
        numbers
            .filter(|numbers| numbers.iter().all(|number| *number <= most))
            .ok_or(out_of_range)
    }

    /// Takes a line `key=` with one number.
    pub fn number(&mut self, key: &str, most: u32) -> Result<u32, Refusal> {
        Ok(self.numbers(key, 1, most)?[0])
    }

    /// Takes a line `key=` with a word.
    pub fn word(&mut self, key: &str) -> Result<&'a [u8], Refusal> {
        let lacks_form = self.refusal(LACKS_FORM);
        value_of(self.take()?, key).ok_or(lacks_form)
    }

    /// Takes so many bytes, which need be no lines.
    pub fn bytes(&mut self, count: usize) -> Result<&'a [u8], Refusal> {
        let (bytes, rest) = self
            .rest
            .split_at_checked(count)
            .ok_or(self.refusal(LACKS_FORM))?;
        self.rest = rest;
        Ok(bytes)
    }

    /// "and then the input ends. A further line [...] is 7."
    pub fn end(&self) -> Result<(), Refusal> {
        if self.rest.is_empty() {
            Ok(())
        } else {
            Err(self.refusal(LACKS_FORM))
        }
    }
}

fn value_of<'a>(line: &'a [u8], key: &str) -> Option<&'a [u8]> {
    line.strip_prefix(key.as_bytes())?.strip_prefix(b"=")
}

fn fields(list: &[u8]) -> Vec<&[u8]> {
    if list.is_empty() {
        return Vec::new();
    }
    list.split(|byte| *byte == b',').collect()
}

/// "Numbers are decimal with no leading zero except 0 itself"
fn well_formed(field: &[u8]) -> bool {
    let decimal = !field.is_empty() && field.iter().all(u8::is_ascii_digit);
    decimal && (field[0] != b'0' || field.len() == 1)
}

/// "one over 4,294,967,295 is 8": no number for those.
fn number(field: &[u8]) -> Option<u32> {
    std::str::from_utf8(field).ok()?.parse().ok()
}

/// The number that these bytes are, in form and in range.
pub fn decimal(bytes: &[u8]) -> Option<u32> {
    number(bytes).filter(|_| well_formed(bytes))
}

/// "Refusal 9 comes first; then the first faulty line."
pub fn read(input: &[u8]) -> Result<Job, Refusal> {
    if input.len() > MOST_JOB_BYTES {
        return Err(Refusal { number: 9, at: 0 });
    }
    let mut lines = Lines::of(input);
    let budget = lines.number("budget", u32::MAX)?;
    let room = lines.number("room", MOST_ROOM)?;
    let levels = lines.number("levels", u32::MAX)?;
    let inputs = lines.number("inputs", VARIABLES as u32)?;
    let mut memory = [0; VARIABLES];
    for variable in memory.iter_mut().take(inputs as usize) {
        *variable = lines.number("in", u32::MAX)?;
    }
    let rows = lines.number("rows", MOST_ROWS as u32)?;
    let mut words = Vec::new();
    for _ in 0..rows {
        words.extend(lines.numbers("row", ROW_WORDS, u32::MAX)?);
    }
    lines.end()?;
    Ok(Job {
        budget,
        room,
        levels,
        memory,
        words,
    })
}

/// What the program prints for a job.
pub fn report(input: &[u8]) -> String {
    let job = match read(input) {
        Ok(job) => job,
        Err(refusal) => return refusal_lines(refusal),
    };
    let mut trace = vec![0; job.room as usize * RECORD_WORDS];
    let (answer, levels) = run(&job.words, job.memory, job.levels, job.budget, &mut trace);
    match answer.end {
        End::Refused(refusal) => refusal_lines(refusal),
        End::Ended { .. } => end_lines(&answer.end) + &run_lines(&answer, levels, &trace),
    }
}

/// "A refusal prints `refused=` and `at=`, a line each."
pub fn refusal_lines(refusal: Refusal) -> String {
    format!("refused={}\nat={}\n", refusal.number, refusal.at)
}

/// "The report gains `because=` after `place=`"
pub fn end_lines(end: &End) -> String {
    match end {
        End::Refused(refusal) => refusal_lines(*refusal),
        End::Ended {
            verdict,
            place,
            because,
        } => {
            let verdict = *verdict as u32;
            format!("verdict={verdict}\nplace={place}\nbecause={because}\n")
        }
    }
}

/// "`levels` is the final mark set, `marked` how many variables it marks, `out` a record."
fn run_lines(answer: &Answer, levels: u32, trace: &[u32]) -> String {
    let mut lines = format!("steps={}\nlevels={levels}\n", answer.steps);
    lines += &format!("marked={}\n", marked(&from_bits(levels)));
    lines += &format!("mem={}\n", list(&answer.memory));
    lines += &format!("records={}\n", answer.records);
    for record in trace.chunks(RECORD_WORDS).take(answer.records) {
        lines += &format!("out={}\n", list(record));
    }
    lines
}

pub fn list(numbers: &[u32]) -> String {
    let numbers: Vec<String> = numbers.iter().map(u32::to_string).collect();
    numbers.join(",")
}
