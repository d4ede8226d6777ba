//! The reader: a recipe's text becomes rows and start marks, or is refused.
//! The text is cut into words, and a machine goes over them with a stack of what is still to
//! come; nothing here calls itself.

mod grammar;
mod machine;
mod words;

use crate::job::{list, refusal_lines};
use crate::marks::{to_bits, EMPTY};
use crate::table::{judge, Refusal, Row, MOST_ROWS, ROW_WORDS};
use machine::rows;
use words::{words, Class, Word};

/// "text of at most 16,384 bytes"
pub const MOST_TEXT_BYTES: usize = 16_384;

/// 9: "also for too long a text"
pub const TOO_LONG: u32 = 9;
/// 10: "at the first word with which no recipe can begin or go on (or at the end)"
pub const NO_RECIPE: u32 = 10;
/// 11: "at the first variable declared again"
pub const DECLARED_AGAIN: u32 = 11;
/// 12: "for over 512 rows"
pub const TOO_MANY_ROWS: u32 = 12;
/// 13: "when the lent table is too short"
pub const TABLE_TOO_SHORT: u32 = 13;

/// The answer; `refused` is 0 for an accepted text. Start and length are those of the part of
/// the text that is handed back.
#[derive(Clone, Copy, Debug, PartialEq, Eq)]
pub struct Reading {
    pub refused: u32,
    pub at: u32,
    pub rows: usize,
    pub marks: u32,
    pub start: usize,
    pub length: usize,
}

/// A refusal, and the faulty word; none where the empty part at the end is handed back.
struct Refused {
    refusal: Refusal,
    word: Option<Word>,
}

impl Refused {
    fn by(number: u32, word: Option<Word>) -> Refused {
        let refusal = Refusal { number, at: 0 };
        Refused { refusal, word }
    }
}

/// Reads a text; the rows are written at the front of the lent table.
/// "No refusal writes the table; words past the rows stay."
pub fn read(text: &[u8], table: &mut [u32]) -> Reading {
    let end = Reading {
        refused: 0,
        at: 0,
        rows: 0,
        marks: 0,
        start: text.len(),
        length: 0,
    };
    match accepted(text, table.len()) {
        Ok((rows, marks)) => {
            let words = rows.concat();
            table[..words.len()].copy_from_slice(&words);
            Reading {
                rows: rows.len(),
                marks,
                ..end
            }
        }
        Err(Refused { refusal, word }) => Reading {
            refused: refusal.number,
            at: refusal.at,
            start: word.map_or(end.start, |word| word.start),
            length: word.map_or(0, |word| word.length),
            ..end
        },
    }
}

/// The rows and the marks; refusals in their order.
fn accepted(text: &[u8], lent: usize) -> Result<(Vec<Row>, u32), Refused> {
    if text.len() > MOST_TEXT_BYTES {
        return Err(Refused::by(TOO_LONG, None));
    }
    let words = words(text);
    let rows = rows(&words).map_err(|fault| Refused::by(NO_RECIPE, words.get(fault).copied()))?;
    let marks = declared(&words)?;
    if rows.len() > MOST_ROWS {
        return Err(Refused::by(TOO_MANY_ROWS, None));
    }
    judge(&rows.concat()).map_err(|refusal| Refused {
        refusal,
        word: None,
    })?;
    if lent < rows.len() * ROW_WORDS {
        return Err(Refused::by(TABLE_TOO_SHORT, None));
    }
    Ok((rows, marks))
}

/// The marks that a recipe's declarations give: no other part of it has the word `in`, and
/// the variable, and then a level or the `;`, come next.
fn declared(words: &[Word]) -> Result<u32, Refused> {
    let (mut declared, mut marks) = (EMPTY, EMPTY);
    for three in words.windows(3).filter(|three| three[0].class == Class::In) {
        let variable = three[1].value as usize;
        if declared[variable] {
            return Err(Refused::by(DECLARED_AGAIN, Some(three[1])));
        }
        declared[variable] = true;
        marks[variable] = three[2].class == Class::Provisional;
    }
    Ok(to_bits(&marks))
}

/// A text's marks and rows, as a job has them; else the refusal, and the part handed back.
pub fn job_lines(text: &[u8]) -> String {
    let mut table = [0; MOST_ROWS * ROW_WORDS];
    let reading = read(text, &mut table);
    if reading.refused != 0 {
        let refusal = Refusal {
            number: reading.refused,
            at: reading.at,
        };
        let part = format!("start={}\nlength={}\n", reading.start, reading.length);
        return refusal_lines(refusal) + &part;
    }
    let rows = table.chunks(ROW_WORDS).take(reading.rows);
    let rows: String = rows.map(|row| format!("row={}\n", list(row))).collect();
    format!("levels={}\nrows={}\n{rows}", reading.marks, reading.rows)
}
