//! The comparison on texts: a random one, with a table and a buffer at and around what its
//! answer takes, and every short list of words.

use buzorinde::READ_WORDS;
use independent::marks::VARIABLES;
use independent::random::Random;
use independent::table::{MOST_ROWS, ROW_WORDS};
use independent::text::{
    read, Reading, DECLARED_AGAIN, MOST_TEXT_BYTES, NO_RECIPE, TABLE_TOO_SHORT, TOO_LONG,
    TOO_MANY_ROWS,
};
use independent::texts::{random_text, Kind as Made};

use crate::calls::{pattern, Left, ANSWER_TOO_SHORT};
use crate::case::{Case, Question};
use crate::comparison::compared;
use crate::kinds::{Kind, Tally};

const TOO_DEEP: u32 = 5;

/// A text that is read into a table of so many words.
fn reading(text: &[u8], table_words: usize, answer_words: usize) -> Case {
    Case {
        table: pattern(0x5000_0000, table_words),
        marks: 0,
        question: Question::Read(text.to_vec()),
        answer_words,
    }
}

/// Compares on one random text; answers the first case with a difference.
pub fn compare_on_a_text(random: &mut Random, tally: &mut Tally) -> Result<(), Box<Case>> {
    let asked = random_text(random);
    let twice = random.percent(10);
    let text = if twice {
        declared_twice(random, &asked.text)
    } else {
        asked.text.clone()
    };
    let left = compared(reading(&text, asked.lent, READ_WORDS), tally)?;
    count_made(asked.kind, &left, tally);
    count_answer(&left, tally);
    count_lengths(&text, &left, tally);
    if twice {
        count_order(&asked.text, &left, tally);
    }
    if random.percent(20) {
        return compare_other_buffer(random, &text, asked.lent, tally);
    }
    Ok(())
}

/// The same call with a buffer for the answer that is too short, or longer than needed.
fn compare_other_buffer(
    random: &mut Random,
    text: &[u8],
    lent: usize,
    tally: &mut Tally,
) -> Result<(), Box<Case>> {
    let answer_words = random.below(READ_WORDS as u32 + 6) as usize;
    let left = compared(reading(text, lent, answer_words), tally)?;
    tally.count_if(left.status == ANSWER_TOO_SHORT, Kind::ReadTooShort);
    tally.count_if(answer_words > READ_WORDS, Kind::ReadLonger);
    Ok(())
}

/// The text after two declarations of one variable.
fn declared_twice(random: &mut Random, text: &[u8]) -> Vec<u8> {
    let variable = random.below(VARIABLES as u32);
    let declared = format!("in v{variable};in v{variable} provisional;");
    [declared.as_bytes(), text].concat()
}

/// Counts a text that is answered as it was made for.
fn count_made(made: Made, left: &Left, tally: &mut Tally) {
    let kind = match (made, left.refusal()) {
        (Made::Recipe, 0) => Kind::Written,
        (Made::Deep, 0) => Kind::DeepText,
        (Made::Deep, TOO_DEEP) => Kind::TooDeepText,
        (Made::ManyRows, TOO_MANY_ROWS) => Kind::ManyRows,
        (Made::Repeated, 0) => Kind::RepeatedPiece,
        (Made::Repeated, TOO_DEEP) => Kind::RepeatedTooDeep,
        (Made::Repeated, NO_RECIPE) => Kind::RepeatedNoRecipe,
        (Made::Repeated, TOO_MANY_ROWS) => Kind::RepeatedManyRows,
        (Made::DeclaredAgain, DECLARED_AGAIN) => Kind::DeclaredAgain,
        (Made::WordDropped, NO_RECIPE) => Kind::WordDropped,
        (Made::WordDoubled, NO_RECIPE) => Kind::WordDoubled,
        (Made::WordsExchanged, NO_RECIPE) => Kind::WordsExchanged,
        (Made::WordReplaced, NO_RECIPE) => Kind::WordReplaced,
        (Made::WordCut, NO_RECIPE) => Kind::WordCut,
        (Made::TextCut, NO_RECIPE) => Kind::TextCut,
        (Made::ByteChanged, NO_RECIPE) => Kind::ByteChanged,
        (Made::FewWords, 0) => Kind::FewWords,
        (Made::FewWords, NO_RECIPE) => Kind::FewWordsNoRecipe,
        _ => return,
    };
    tally.count(kind);
}

fn count_answer(left: &Left, tally: &mut Tally) {
    tally.count(match left.refusal() {
        0 => Kind::Read,
        TOO_DEEP => Kind::TextRefused5,
        TOO_LONG => Kind::Refused9,
        NO_RECIPE if left.hands_back_a_word() => Kind::Refused10Word,
        NO_RECIPE => Kind::Refused10End,
        DECLARED_AGAIN => Kind::Refused11,
        TOO_MANY_ROWS => Kind::Refused12,
        _ => Kind::Refused13,
    });
}

/// Counts texts, tables and marks at their limits.
fn count_lengths(text: &[u8], left: &Left, tally: &mut Tally) {
    let lent = left.table.len();
    match left.refusal() {
        0 => {
            let words = left.rows() * ROW_WORDS;
            tally.count_if(left.start_marks() != 0, Kind::ReadMarks);
            tally.count_if(left.rows() == MOST_ROWS, Kind::LongestTable);
            tally.count_if(text.len() == MOST_TEXT_BYTES, Kind::LongestText);
            tally.count_if(lent == words, Kind::TableFilled);
            tally.count_if(lent > words, Kind::TableLonger);
        }
        TOO_LONG => tally.count_if(text.len() == MOST_TEXT_BYTES + 1, Kind::TooLongText),
        TABLE_TOO_SHORT => {
            let words = read_roomily(text).rows * ROW_WORDS;
            tally.count_if(lent + 1 == words, Kind::TableOneShort);
        }
        _ => {}
    }
}

/// Counts what refuses a text with two declarations of one variable before it, where another
/// number refuses the text alone.
fn count_order(alone: &[u8], left: &Left, tally: &mut Tally) {
    match (left.refusal(), read_roomily(alone).refused) {
        (NO_RECIPE, _) => tally.count(Kind::Order10Before11),
        (DECLARED_AGAIN, TOO_MANY_ROWS) => tally.count(Kind::Order11Before12),
        (DECLARED_AGAIN, TOO_DEEP) => tally.count(Kind::Order11Before5),
        _ => {}
    }
}

/// The reading where the table is long enough for every recipe.
fn read_roomily(text: &[u8]) -> Reading {
    read(text, &mut [0; MOST_ROWS * ROW_WORDS])
}

/// The words of the lists: every keyword, one of the words where several stand in the same
/// places, a second variable to be declared, and a word that no recipe has.
const WORDS: [&str; 20] = [
    "in",
    "v0",
    "v1",
    "settled",
    "provisional",
    ";",
    "skip",
    "set",
    "=",
    "0",
    "(",
    "+",
    ")",
    "if",
    "then",
    "else",
    "end",
    "while",
    "do",
    "x",
];

/// Every list of up to so many words is tried, also where a word does not go on.
const WHATEVER_COMES: usize = 4;

/// Compares on every list of up to `most` words of which each but the last goes on, and on
/// every list of few words.
pub fn compare_on_lists(most: usize, tally: &mut Tally) -> Result<(), Box<Case>> {
    compare_from(&mut vec![], most, tally)
}

/// Compares on a list, and on those that begin with it.
fn compare_from(list: &mut Vec<&str>, most: usize, tally: &mut Tally) -> Result<(), Box<Case>> {
    let text = list.join(" ");
    // No recipe has more rows than words.
    let left = compared(
        reading(text.as_bytes(), most * ROW_WORDS, READ_WORDS),
        tally,
    )?;
    count_answer(&left, tally);
    let faulty = left.refusal() == NO_RECIPE && left.hands_back_a_word();
    if list.len() == most || faulty && list.len() >= WHATEVER_COMES {
        return Ok(());
    }
    for word in WORDS {
        list.push(word);
        compare_from(list, most, tally)?;
        list.pop();
    }
    Ok(())
}
