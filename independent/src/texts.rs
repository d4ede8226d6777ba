//! Random texts: recipes written out, at their limits, and damaged in one way.

use crate::marks::VARIABLES;
use crate::random::Random;
use crate::recipes::{output, Part};
use crate::table::{MOST_HEIGHT, MOST_LOOP_NESTING, MOST_NESTING, MOST_ROWS, ROW_WORDS};
use crate::text::{read, Reading, MOST_TEXT_BYTES, NO_RECIPE};
use crate::writing::written;

/// What a text was made for.
#[derive(Clone, Copy, Debug, PartialEq, Eq, PartialOrd, Ord)]
pub enum Kind {
    Recipe,
    /// Height, nesting and loop nesting at their limits, or one over.
    Deep,
    /// Rows around their limit.
    ManyRows,
    /// Bytes around their limit.
    LongText,
    /// One piece many times, and another about as often after it.
    Repeated,
    DeclaredAgain,
    WordDropped,
    WordDoubled,
    WordsExchanged,
    WordReplaced,
    /// A space in a word, or its last byte gone.
    WordCut,
    /// The end is missing.
    TextCut,
    ByteChanged,
    /// Words one after the other, most of which go on.
    FewWords,
}

pub const KINDS: [Kind; 14] = [
    Kind::Recipe,
    Kind::Deep,
    Kind::ManyRows,
    Kind::LongText,
    Kind::Repeated,
    Kind::DeclaredAgain,
    Kind::WordDropped,
    Kind::WordDoubled,
    Kind::WordsExchanged,
    Kind::WordReplaced,
    Kind::WordCut,
    Kind::TextCut,
    Kind::ByteChanged,
    Kind::FewWords,
];

/// What the reader is given: a text, and how many words the lent table has.
pub struct Asked {
    pub kind: Kind,
    pub text: Vec<u8>,
    pub lent: usize,
}

/// Words that a word is replaced by, and short texts are made of; some are in no recipe.
const WORDS: [&str; 36] = [
    "in",
    "settled",
    "provisional",
    "skip",
    "set",
    "if",
    "then",
    "else",
    "end",
    "while",
    "do",
    ";",
    "(",
    ")",
    "+",
    "-",
    "*",
    "/",
    "=",
    "<",
    "0",
    "1",
    "4294967295",
    "v0",
    "v1",
    "v31",
    "4294967296",
    "v32",
    "007",
    "v01",
    "v",
    "Skip",
    "x",
    "\t",
    "\r",
    "\u{e9}",
];

/// Bytes that a byte is changed to, beside any other.
const BYTES: &[u8] = b" \n\t\r\0;()+-*/=<>v0129aAzZ_\x7f\x80\xff";

/// What stands first, what is repeated, what stands between, and what is repeated after it.
const REPEATED: [[&str; 4]; 9] = [
    ["settled ", "(", "1", "+1)"],
    ["settled ", "(1<", "v0", ")"],
    ["set v0=", "(", "v1", "=v2)"],
    ["settled ", "9", "", ""],
    ["", "if v0 then ", "skip", " else skip end"],
    ["", "if 1 then skip else ", "skip", " end"],
    ["", "while 1 do ", "skip", " end"],
    ["", "skip;", "skip", " "],
    ["", "in v0;", "skip", ";skip"],
];

/// So many words are tried at most in one text.
const MOST_TRIED: u32 = 200;

pub fn random_text(random: &mut Random) -> Asked {
    let kind = random.one_of(&KINDS);
    let text = text(random, kind);
    let lent = lent(random, &text);
    Asked { kind, text, lent }
}

fn text(random: &mut Random, kind: Kind) -> Vec<u8> {
    let part = match kind {
        Kind::Deep => deep(random),
        Kind::ManyRows => return many_rows(random),
        Kind::LongText => return long_text(random),
        Kind::Repeated => return repeated(random),
        Kind::FewWords => return few_words(random),
        _ => random.statement(3, 0),
    };
    let mut words = declarations(random);
    if kind == Kind::DeclaredAgain {
        declare_again(random, &mut words);
    }
    words.extend(words_of(&written(&part)));
    damage_words(random, kind, &mut words);
    let mut text = spaced(random, &words);
    damage_bytes(random, kind, &mut text);
    text
}

fn words_of(text: &str) -> Vec<String> {
    text.split(' ').map(str::to_string).collect()
}

/// Mostly the variables that recipes use, each once.
fn declarations(random: &mut Random) -> Vec<String> {
    let mut words = Vec::new();
    let mut declared = Vec::new();
    for _ in 0..random.below(6) {
        let most = random.one_of(&[8, 8, VARIABLES as u32]);
        let variable = random.below(most);
        if !declared.contains(&variable) {
            declared.push(variable);
            words.extend(declaration(random, &format!("v{variable}")));
        }
    }
    words
}

fn declaration(random: &mut Random, variable: &str) -> Vec<String> {
    let level = random.one_of(&[" ;", " settled ;", " provisional ;", " provisional ;"]);
    words_of(&format!("in {variable}{level}"))
}

/// One more declaration, of a variable that has one.
fn declare_again(random: &mut Random, words: &mut Vec<String>) {
    let variable = format!("v{}", random.below(VARIABLES as u32));
    let first = declaration(random, &variable);
    let again = declaration(random, &variable);
    words.splice(0..0, first);
    if random.percent(50) {
        words.extend(declarations(random));
    }
    words.extend(again);
}

/// One more than a limit at times.
fn at_or_over(random: &mut Random, limit: u32) -> u32 {
    limit + u32::from(random.percent(30))
}

fn deep(random: &mut Random) -> Part {
    if random.percent(50) {
        let height = at_or_over(random, MOST_HEIGHT);
        return output(random.below(2), random.tall(height));
    }
    let nesting = at_or_over(random, MOST_NESTING);
    let loops = at_or_over(random, MOST_LOOP_NESTING);
    let inmost = random.simple();
    random.nest(nesting, loops, 0, inmost)
}

/// Statements of one or two rows, and the rows of their sequences, to about the limit.
fn many_rows(random: &mut Random) -> Vec<u8> {
    let rows = MOST_ROWS as u32 - 3 + random.below(7);
    let longer = random.below(100);
    let short = (rows + 1 - 3 * longer) / 2;
    let mut statements = vec!["skip"; short as usize];
    statements.extend(vec!["set v0 = 1"; longer as usize]);
    let words = words_of(&statements.join(" ; "));
    spaced(random, &words)
}

/// Spaces in front or behind, to about the most bytes that a text may have.
fn long_text(random: &mut Random) -> Vec<u8> {
    let kind = random.one_of(&[Kind::Recipe, Kind::WordDropped, Kind::DeclaredAgain]);
    let mut text = text(random, kind);
    let bytes = MOST_TEXT_BYTES - 3 + random.below(7) as usize;
    let spaces = vec![random.one_of(b" \n"); bytes.saturating_sub(text.len())];
    if random.percent(50) {
        text.extend(spaces);
    } else {
        text.splice(0..0, spaces);
    }
    text
}

fn repeated(random: &mut Random) -> Vec<u8> {
    let [first, before, between, after] = random.one_of(&REPEATED);
    let most = MOST_TEXT_BYTES / (before.len() + after.len());
    let times = random.one_of(&[4, 9, 17, 400, most]);
    let times = 1 + place(random, times);
    let closed = random.one_of(&[times, times, times, times - 1, times + 1, 0]);
    let (before, after) = (before.repeat(times), after.repeat(closed));
    format!("{first}{before}{between}{after}").into_bytes()
}

/// Words that mostly go on: one that does not is mostly taken back.
fn few_words(random: &mut Random) -> Vec<u8> {
    let mut words: Vec<String> = Vec::new();
    for _ in 0..random.below(MOST_TRIED) {
        words.push(random.one_of(&WORDS).to_string());
        let reading = answer(words.join(" ").as_bytes());
        let goes_on = reading.refused != NO_RECIPE || reading.length == 0;
        if !goes_on && random.percent(99) {
            words.pop();
        }
    }
    spaced(random, &words)
}

/// What the reader answers where the table is long enough for every recipe.
fn answer(text: &[u8]) -> Reading {
    read(text, &mut [0; MOST_ROWS * ROW_WORDS])
}

/// A place among so many, of which there is at least one.
fn place(random: &mut Random, places: usize) -> usize {
    random.below(places as u32) as usize
}

fn damage_words(random: &mut Random, kind: Kind, words: &mut Vec<String>) {
    let at = place(random, words.len());
    match kind {
        Kind::WordDropped => {
            words.remove(at);
        }
        Kind::WordDoubled => words.insert(at, words[at].clone()),
        Kind::WordsExchanged => {
            let other = place(random, words.len());
            words.swap(at, other);
        }
        Kind::WordReplaced => words[at] = random.one_of(&WORDS).to_string(),
        Kind::WordCut if random.percent(50) => {
            words[at].pop();
        }
        Kind::WordCut => {
            let half = words[at].len() / 2;
            words[at].insert(half, ' ');
        }
        _ => {}
    }
}

fn damage_bytes(random: &mut Random, kind: Kind, text: &mut Vec<u8>) {
    match kind {
        Kind::TextCut => text.truncate(place(random, text.len())),
        Kind::ByteChanged => {
            let at = place(random, text.len());
            let any = random.below(256) as u8;
            text[at] = random.one_of(&[BYTES, &[any]].concat());
        }
        _ => {}
    }
}

/// The words with spaces and line ends between them; at times none where none is needed.
fn spaced(random: &mut Random, words: &[String]) -> Vec<u8> {
    let wide = random.percent(30);
    let mut text = Vec::new();
    for word in words {
        let needed = text.last().is_some_and(u8::is_ascii_alphanumeric)
            && word.starts_with(|first: char| first.is_ascii_alphanumeric());
        let most = if wide { 4 } else { 2 };
        for _ in 0..random.below(most).max(u32::from(needed)) {
            text.push(random.one_of(b"   \n"));
        }
        text.extend(word.bytes());
    }
    if random.percent(30) {
        text.push(random.one_of(b" \n"));
    }
    text
}

/// As many words as the rows need, or some more, or too few. A refused text has no rows: its
/// table is short, or long enough for those that it may seem to have.
fn lent(random: &mut Random, text: &[u8]) -> usize {
    let rows = match answer(text).rows {
        0 => random.one_of(&[1, 40, MOST_ROWS]),
        rows => rows,
    };
    let needed = (rows * ROW_WORDS) as u32;
    let lent = match random.below(8) {
        0 => needed - 1,
        1 => random.below(needed),
        2 | 3 => needed,
        4 => needed + 1,
        _ => needed + random.below(16),
    };
    lent as usize
}
