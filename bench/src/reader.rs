//! The reader by hand: recursive descent straight on the bytes, with the rows in an array until the text is known to be accepted.

use crate::judge::judge;
use buzorinde::{Judged, Read, Reading, MOST_TABLE_WORDS, MOST_TEXT_BYTES, ROW_WORDS};

/// Where the faulty word starts.
struct Fault(usize);

/// The declarations: their marks, and where the first variable stands that is declared again.
struct Head {
    marks: u32,
    again: Option<usize>,
}

struct Reader<'a> {
    text: &'a [u8],
    at: usize,
    rows: [u32; MOST_TABLE_WORDS],
    count: u32,
}

/// Reads a recipe's text into a table, which no refusal writes.
pub fn read<'a>(text: &'a [u8], table: &mut [u32]) -> Reading<'a> {
    let end = text.len();
    if end > MOST_TEXT_BYTES {
        return refused(9, 0, text, end);
    }
    let mut reader = Reader {
        text,
        at: 0,
        rows: [0; MOST_TABLE_WORDS],
        count: 0,
    };
    let head = match reader.recipe() {
        Ok(head) => head,
        Err(Fault(start)) => return refused(10, 0, text, start),
    };
    if let Some(start) = head.again {
        return refused(11, 0, text, start);
    }
    let Some(words) = reader.rows.get(..reader.count as usize * ROW_WORDS) else {
        return refused(12, 0, text, end);
    };
    if let Judged::Refused { number, row } = judge(words) {
        return refused(number, row, text, end);
    }
    let Some(front) = table.get_mut(..words.len()) else {
        return refused(13, 0, text, end);
    };
    front.copy_from_slice(words);
    Reading {
        read: Read::Recipe {
            rows: reader.count,
            marks: head.marks,
        },
        start: end,
        part: &text[end..],
    }
}

/// A refusal, which hands back the word that starts at a place.
#[cold]
fn refused(number: u32, row: u32, text: &[u8], start: usize) -> Reading<'_> {
    Reading {
        read: Read::Refused { number, row },
        start,
        part: &text[start..word_end(text, start)],
    }
}

/// Where the word ends that starts at a place.
fn word_end(text: &[u8], start: usize) -> usize {
    let Some(first) = text.get(start) else {
        return start;
    };
    if !first.is_ascii_alphanumeric() {
        return start + 1;
    }
    text[start..]
        .iter()
        .position(|byte| !byte.is_ascii_alphanumeric())
        .map_or(text.len(), |length| start + length)
}

impl Reader<'_> {
    /// Goes on to the next byte that is no blank.
    #[inline]
    fn peek(&mut self) -> Option<u8> {
        while let Some(&byte) = self.text.get(self.at) {
            if byte != b' ' && byte != b'\n' {
                return Some(byte);
            }
            self.at += 1;
        }
        None
    }

    /// Takes the next word where it is this key; inlined, so that the key's length is known.
    #[inline(always)]
    fn takes(&mut self, key: &[u8]) -> bool {
        self.peek();
        let rest = &self.text[self.at..];
        if !rest.starts_with(key) {
            return false;
        }
        let joined = key[0].is_ascii_alphanumeric()
            && rest.get(key.len()).is_some_and(u8::is_ascii_alphanumeric);
        if !joined {
            self.at += key.len();
        }
        !joined
    }

    #[inline(always)]
    fn expect(&mut self, key: &[u8]) -> Result<(), Fault> {
        if self.takes(key) {
            Ok(())
        } else {
            Err(Fault(self.at))
        }
    }

    /// Puts a row after the others and gives its number; a row beyond the last that a table can have is only counted.
    #[inline]
    fn put(&mut self, row: [u32; ROW_WORDS]) -> u32 {
        let number = self.count;
        let first = number as usize * ROW_WORDS;
        if let Some(place) = self.rows.get_mut(first..first + ROW_WORDS) {
            place.copy_from_slice(&row);
        }
        self.count += 1;
        number
    }

    /// The digits from a place on to the end of their word, which starts at `start`.
    #[inline]
    fn number(&mut self, start: usize, from: usize, most: u64) -> Result<u32, Fault> {
        let mut value = 0;
        let mut at = from;
        while let Some(&byte) = self.text.get(at) {
            if !byte.is_ascii_digit() {
                if byte.is_ascii_alphabetic() {
                    return Err(Fault(start));
                }
                break;
            }
            value = value * 10 + u64::from(byte - b'0');
            at += 1;
            if value > most {
                return Err(Fault(start));
            }
        }
        if at == from || (self.text[from] == b'0' && at > from + 1) {
            return Err(Fault(start));
        }
        self.at = at;
        Ok(value as u32)
    }

    fn variable(&mut self) -> Result<u32, Fault> {
        match self.peek() {
            Some(b'v') => self.number(self.at, self.at + 1, 31),
            _ => Err(Fault(self.at)),
        }
    }

    fn recipe(&mut self) -> Result<Head, Fault> {
        let mut head = Head {
            marks: 0,
            again: None,
        };
        let mut declared = 0u32;
        while self.takes(b"in") {
            self.peek();
            let start = self.at;
            let bit = 1 << self.variable()?;
            if declared & bit != 0 && head.again.is_none() {
                head.again = Some(start);
            }
            declared |= bit;
            if self.takes(b"provisional") {
                head.marks |= bit;
            } else {
                head.marks &= !bit;
                self.takes(b"settled");
            }
            self.expect(b";")?;
        }
        self.block()?;
        match self.peek() {
            None => Ok(head),
            Some(_) => Err(Fault(self.at)),
        }
    }

    /// Reads a block and gives the row of all of it.
    fn block(&mut self) -> Result<u32, Fault> {
        let first = self.statement()?;
        if self.peek() != Some(b';') {
            return Ok(first);
        }
        self.at += 1;
        let others = self.block()?;
        Ok(self.put([2, first, others, 0]))
    }

    /// Reads a statement. Its first byte leaves few words to compare with.
    fn statement(&mut self) -> Result<u32, Fault> {
        match self.peek() {
            Some(b's') if self.takes(b"set") => {
                let variable = self.variable()?;
                self.expect(b"=")?;
                let value = self.expression()?;
                Ok(self.put([1, variable, value, 0]))
            }
            Some(b's') if self.takes(b"skip") => Ok(self.put([0, 0, 0, 0])),
            Some(b's') if self.takes(b"settled") => self.output(0),
            Some(b'p') if self.takes(b"provisional") => self.output(1),
            Some(b'i') if self.takes(b"if") => {
                let test = self.expression()?;
                self.expect(b"then")?;
                let then = self.block()?;
                self.expect(b"else")?;
                let otherwise = self.block()?;
                self.expect(b"end")?;
                Ok(self.put([3, test, then, otherwise]))
            }
            Some(b'w') if self.takes(b"while") => {
                let test = self.expression()?;
                self.expect(b"do")?;
                let body = self.block()?;
                self.expect(b"end")?;
                Ok(self.put([4, test, body, 0]))
            }
            _ => Err(Fault(self.at)),
        }
    }

    fn output(&mut self, channel: u32) -> Result<u32, Fault> {
        let shown = self.expression()?;
        Ok(self.put([5, channel, shown, 0]))
    }

    fn expression(&mut self) -> Result<u32, Fault> {
        match self.peek() {
            Some(b'(') => {
                self.at += 1;
                let left = self.expression()?;
                let operator = match self.peek() {
                    Some(b'+') => 0,
                    Some(b'-') => 1,
                    Some(b'*') => 2,
                    Some(b'/') => 3,
                    Some(b'=') => 4,
                    Some(b'<') => 5,
                    _ => return Err(Fault(self.at)),
                };
                self.at += 1;
                let right = self.expression()?;
                self.expect(b")")?;
                Ok(self.put([10, operator, left, right]))
            }
            Some(b'v') => {
                let variable = self.variable()?;
                Ok(self.put([9, variable, 0, 0]))
            }
            _ => {
                let value = self.number(self.at, self.at, u64::from(u32::MAX))?;
                Ok(self.put([8, value, 0, 0]))
            }
        }
    }
}
