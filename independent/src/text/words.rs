//! The words of a text, and what each can be in a recipe.

use crate::job::decimal;
use crate::marks::VARIABLES;
use crate::tree::{PROVISIONAL, SETTLED};

#[derive(Clone, Copy, Debug, PartialEq, Eq)]
pub enum Class {
    In,
    Settled,
    Provisional,
    Skip,
    Set,
    If,
    Then,
    Else,
    End,
    While,
    Do,
    Semicolon,
    Open,
    Close,
    /// Between the variable and the expression of `set`, and an operator.
    Equal,
    /// Each other operator.
    Operator,
    Number,
    Variable,
    /// No recipe has the word.
    Unknown,
}

/// A word's place in its text, and the number that it puts into a row, where it puts one.
#[derive(Clone, Copy, Debug, PartialEq, Eq)]
pub struct Word {
    pub start: usize,
    pub length: usize,
    pub class: Class,
    pub value: u32,
}

/// "spaces and LF may stand between words"
pub fn words(text: &[u8]) -> Vec<Word> {
    let mut words = Vec::new();
    let mut start = 0;
    while start < text.len() {
        let length = length(&text[start..]);
        let bytes = &text[start..start + length];
        if bytes != b" " && bytes != b"\n" {
            let (class, value) = meaning(bytes);
            words.push(Word {
                start,
                length,
                class,
                value,
            });
        }
        start += length;
    }
    words
}

/// "A word is the longest run of ASCII letters and digits, else one byte"
fn length(rest: &[u8]) -> usize {
    let run = rest.iter().take_while(|byte| byte.is_ascii_alphanumeric());
    run.count().max(1)
}

fn meaning(bytes: &[u8]) -> (Class, u32) {
    match bytes {
        b"in" => (Class::In, 0),
        b"settled" => (Class::Settled, SETTLED),
        b"provisional" => (Class::Provisional, PROVISIONAL),
        b"skip" => (Class::Skip, 0),
        b"set" => (Class::Set, 0),
        b"if" => (Class::If, 0),
        b"then" => (Class::Then, 0),
        b"else" => (Class::Else, 0),
        b"end" => (Class::End, 0),
        b"while" => (Class::While, 0),
        b"do" => (Class::Do, 0),
        b";" => (Class::Semicolon, 0),
        b"(" => (Class::Open, 0),
        b")" => (Class::Close, 0),
        b"+" => (Class::Operator, 0),
        b"-" => (Class::Operator, 1),
        b"*" => (Class::Operator, 2),
        b"/" => (Class::Operator, 3),
        b"=" => (Class::Equal, 4),
        b"<" => (Class::Operator, 5),
        _ => numbered(bytes),
    }
}

/// "a decimal number up to 4,294,967,295, a variable v0 to v31"
fn numbered(bytes: &[u8]) -> (Class, u32) {
    let variable = bytes.strip_prefix(b"v").and_then(decimal);
    let variable = variable.filter(|number| *number < VARIABLES as u32);
    match (decimal(bytes), variable) {
        (Some(value), _) => (Class::Number, value),
        (_, Some(variable)) => (Class::Variable, variable),
        _ => (Class::Unknown, 0),
    }
}
