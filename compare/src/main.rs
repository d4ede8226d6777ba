//! The program: compares the proved functions with the independent implementation on random
//! inputs, and prints the smallest case that shows a difference.

mod calls;
mod case;
mod comparison;
mod damages;
mod kinds;
mod pairs;
mod pieces;
mod readings;
mod shrink;
mod stored;
mod tables;
mod words;

use std::panic::{catch_unwind, AssertUnwindSafe};
use std::path::{Path, PathBuf};
use std::process::ExitCode;
use std::str::FromStr;
use std::time::Instant;

use independent::random::Random;

use case::Case;
use comparison::{compare_on_a_table, difference};
use kinds::{About, Kind, Tally};
use readings::{compare_on_a_text, compare_on_lists};
use shrink::smallest;
use stored::compare_stored;

const HELP: &str = "\
usage: compare [OPTION]...
Compares whole answers of the proved functions with the independent implementation's: on random
tables, memories, mark sets, budgets, rooms and buffers, on random texts, and on every text of
few words. Holds the proved ones to demand 3 on pairs of memories. Prints a summary, or the
smallest job or text that shows a difference.
  --count N   on how many tables (40000); each takes three to eleven calls
  --texts N   on how many texts (40000); each takes one or two calls
  --words N   on every list of up to N words (9) of a small alphabet of which each but the last
              goes on, and on every list of up to 4; 0 is the empty text alone
  --seed S    which tables and texts (1): the same seed gives the same ones
  --first I   begin with table I and text I of the seed (0), to see one again
  --kinds     print how often each kind of case occurred
  --stored D  compare on the cases stored in folder D, and on no other
  --help      print this text
Exit status: 0 no difference, 1 a difference, or a kind of case that never occurred in a run
over 20000 tables, or texts, or more, 2 a use that is not known.
";

const GATE_TABLES: u64 = 40_000;
const GATE_TEXTS: u64 = 40_000;
const GATE_WORDS: usize = 9;
/// From this many tables on, or texts, every kind of case about these has to occur.
const ENOUGH_FOR_ALL_KINDS: u64 = 20_000;
const PROGRESS_SECONDS: u64 = 10;

const FAILED: u8 = 1;
const MISUSED: u8 = 2;

struct Options {
    tables: u64,
    texts: u64,
    words: usize,
    seed: u64,
    first: u64,
    kinds: bool,
    stored: Option<PathBuf>,
    help: bool,
}

fn options(mut words: impl Iterator<Item = String>) -> Result<Options, String> {
    let mut options = Options {
        tables: GATE_TABLES,
        texts: GATE_TEXTS,
        words: GATE_WORDS,
        seed: 1,
        first: 0,
        kinds: false,
        stored: None,
        help: false,
    };
    while let Some(word) = words.next() {
        match word.as_str() {
            "--count" => options.tables = number(&word, words.next())?,
            "--texts" => options.texts = number(&word, words.next())?,
            "--words" => options.words = number(&word, words.next())?,
            "--seed" => options.seed = number(&word, words.next())?,
            "--first" => options.first = number(&word, words.next())?,
            "--kinds" => options.kinds = true,
            "--stored" => options.stored = Some(folder(&word, words.next())?),
            "--help" => options.help = true,
            _ => return Err(format!("unknown option: {word}; try --help")),
        }
    }
    Ok(options)
}

fn number<N: FromStr>(option: &str, word: Option<String>) -> Result<N, String> {
    let number = word.as_ref().and_then(|word| word.parse().ok());
    number.ok_or(format!("{option} needs a whole number; try --help"))
}

fn folder(option: &str, word: Option<String>) -> Result<PathBuf, String> {
    let folder = word.map(PathBuf::from);
    folder.ok_or(format!("{option} needs a folder; try --help"))
}

fn main() -> ExitCode {
    let words = std::env::args_os().skip(1);
    match options(words.map(|word| word.to_string_lossy().into_owned())) {
        Err(message) => {
            eprintln!("compare: {message}");
            ExitCode::from(MISUSED)
        }
        Ok(options) if options.help => {
            print!("{HELP}");
            ExitCode::SUCCESS
        }
        Ok(options) => match &options.stored {
            Some(folder) => stored(folder),
            None => compare(&options),
        },
    }
}

fn stored(folder: &Path) -> ExitCode {
    match compare_stored(folder) {
        Ok(count) => {
            println!("compare: {count} stored cases, no difference");
            ExitCode::SUCCESS
        }
        Err(text) => {
            print!("compare: {text}");
            ExitCode::from(FAILED)
        }
    }
}

fn compare(options: &Options) -> ExitCode {
    let mut tallies = Tallies {
        tables: Tally::new(About::Table),
        texts: Tally::new(About::Text),
        lists: Tally::new(About::Text),
    };
    if let Err(text) = compare_all(options, &mut tallies) {
        print!("{text}");
        return ExitCode::from(FAILED);
    }
    print!("{}", tallies.summary(options));
    if options.kinds {
        print!("{}{}", tallies.tables.lines(), tallies.texts.lines());
    }
    all_kinds(options, &tallies)
}

struct Tallies {
    tables: Tally,
    texts: Tally,
    lists: Tally,
}

/// Answers what is to be told of the first difference.
fn compare_all(options: &Options, tallies: &mut Tallies) -> Result<(), String> {
    let tables = Inputs {
        name: "table",
        count: options.tables,
        alone: "--count 1 --texts 0 --words 0",
    };
    compare_on_each(&tables, options, |random| {
        compare_on_a_table(random, &mut tallies.tables)
    })?;
    told("a list of words", || {
        compare_on_lists(options.words, &mut tallies.lists)
    })?;
    let texts = Inputs {
        name: "text",
        count: options.texts,
        alone: "--count 0 --texts 1 --words 0",
    };
    compare_on_each(&texts, options, |random| {
        compare_on_a_text(random, &mut tallies.texts)
    })
}

/// Random inputs of one sort, and the options by which one of them is seen alone.
struct Inputs {
    name: &'static str,
    count: u64,
    alone: &'static str,
}

fn compare_on_each(
    inputs: &Inputs,
    options: &Options,
    mut compare: impl FnMut(&mut Random) -> Result<(), Box<Case>>,
) -> Result<(), String> {
    let Inputs { name, count, alone } = inputs;
    let Options { seed, first, .. } = options;
    let began = Instant::now();
    let mut shown = 0;
    for number in *first..first.saturating_add(*count) {
        let mut random = Random::new(seed_of(*seed, number));
        let which = format!("{name} {number}, again by --seed {seed} --first {number} {alone}");
        told(&which, || compare(&mut random))?;
        let seconds = began.elapsed().as_secs();
        if seconds >= shown + PROGRESS_SECONDS {
            shown = seconds;
            let done = number - first + 1;
            eprintln!("compare: {done} of {count} {name}s, {seconds} s");
        }
    }
    Ok(())
}

/// Each input has a generator of its own, so that one can be seen again without the others.
fn seed_of(seed: u64, number: u64) -> u64 {
    seed.rotate_left(u32::BITS) ^ number
}

/// Compares; answers what is to be told of a difference.
fn told(which: &str, compare: impl FnOnce() -> Result<(), Box<Case>>) -> Result<(), String> {
    match catch_unwind(AssertUnwindSafe(compare)) {
        Ok(compared) => compared.map_err(|case| found(*case, which)),
        Err(_) => Err(format!("compare: one side broke off ({which})\n")),
    }
}

/// The smallest case with a difference, with both answers.
fn found(case: Case, which: &str) -> String {
    let case = smallest(case, |case| difference(case).is_some());
    let why = difference(&case).unwrap_or_default();
    format!("compare: a difference ({which})\n{}\n{why}\n", case.text())
}

impl Tallies {
    fn summary(&self, options: &Options) -> String {
        let Options {
            seed,
            tables,
            texts,
            words,
            ..
        } = options;
        let (on_tables, on_texts) = (table_counts(&self.tables), text_counts(&self.texts));
        let (lists, on_lists) = (self.lists.comparisons, text_counts(&self.lists));
        let (of_tables, of_texts) = (self.tables.comparisons, self.texts.comparisons);
        format!(
            "compare: seed {seed}, {tables} tables, {of_tables} comparisons, no difference; {on_tables}\n\
             compare: seed {seed}, {texts} texts, {of_texts} comparisons, no difference; {on_texts}\n\
             compare: {lists} lists of up to {words} words, no difference; {on_lists}\n"
        )
    }
}

fn counts(tally: &Tally, names: &[(&str, Kind)]) -> String {
    let count = |(name, kind): &(&str, Kind)| format!("{name} {}", tally.of(*kind));
    names.iter().map(count).collect::<Vec<_>>().join(", ")
}

fn table_counts(tally: &Tally) -> String {
    let tables = [
        ("accepted", Kind::Accepted),
        ("refused by 1", Kind::Refused1),
        ("by 2", Kind::Refused2),
        ("by 3", Kind::Refused3),
        ("by 4", Kind::Refused4),
        ("by 5", Kind::Refused5),
    ];
    let runs = [
        ("verdict 0", Kind::Done),
        ("1", Kind::Stopped),
        ("2", Kind::Spent),
        ("3", Kind::NoRoom),
        ("refused by 6", Kind::Refused6),
    ];
    let checks = [("pass", Kind::Pass), ("fail", Kind::Fail)];
    let pairs = [("pairs", Kind::Pair), ("both done", Kind::PairDone)];
    let (tables, runs) = (counts(tally, &tables), counts(tally, &runs));
    let (checks, pairs) = (counts(tally, &checks), counts(tally, &pairs));
    format!("tables: {tables}; runs: {runs}; checks: {checks}; {pairs}")
}

fn text_counts(tally: &Tally) -> String {
    let answers = [
        ("accepted", Kind::Read),
        ("refused by 9", Kind::Refused9),
        ("by 10 at a word", Kind::Refused10Word),
        ("by 10 at the end", Kind::Refused10End),
        ("by 11", Kind::Refused11),
        ("by 12", Kind::Refused12),
        ("by 5", Kind::TextRefused5),
        ("by 13", Kind::Refused13),
    ];
    counts(tally, &answers)
}

/// A comparison that never met a kind of case would say nothing about it.
fn all_kinds(options: &Options, tallies: &Tallies) -> ExitCode {
    let mut missing = Vec::new();
    if options.tables >= ENOUGH_FOR_ALL_KINDS {
        missing.extend(tallies.tables.missing());
    }
    if options.texts >= ENOUGH_FOR_ALL_KINDS {
        missing.extend(tallies.texts.missing());
    }
    for name in &missing {
        eprintln!("compare: no case of this kind occurred: {name}");
    }
    if missing.is_empty() {
        return ExitCode::SUCCESS;
    }
    ExitCode::from(FAILED)
}
