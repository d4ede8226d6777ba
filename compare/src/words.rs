//! Tables as words: what a word is, and rows put in and taken out.

use independent::table::{words_of, Row, Word, BINARY, CONSTANT, ROW_WORDS, VARIABLE};

/// What the word at a place is; none for a kind, and for words of an unknown kind.
fn role(words: &[u32], at: usize) -> Option<Word> {
    let place = at % ROW_WORDS;
    let roles = words_of(words[at - place])?;
    roles.get(place.checked_sub(1)?).copied()
}

/// The places of the words whose role fits.
pub fn places(words: &[u32], fits: impl Fn(Word) -> bool) -> Vec<usize> {
    let fit = |at: &usize| role(words, *at).is_some_and(&fits);
    (0..words.len()).filter(fit).collect()
}

/// Whether a word is a row's number.
pub fn is_child(role: Word) -> bool {
    matches!(role, Word::Expression | Word::Statement)
}

/// The rows that a row names as its children.
pub fn children(words: &[u32], row: usize) -> Vec<usize> {
    let of_row = (row * ROW_WORDS..words.len()).take(ROW_WORDS);
    of_row
        .filter(|at| role(words, *at).is_some_and(is_child))
        .map(|at| words[at] as usize)
        .collect()
}

/// Whether a row is an expression; every other one is taken for a statement.
pub fn is_expression(words: &[u32], row: usize) -> bool {
    matches!(words[row * ROW_WORDS], CONSTANT | VARIABLE | BINARY)
}

/// The table with a row put in: rows from there on, and the numbers that name them, go up by 1.
pub fn with_row(words: &[u32], at: usize, row: Row) -> Vec<u32> {
    let mut grown = words.to_vec();
    for place in places(words, is_child) {
        if grown[place] as usize >= at {
            grown[place] = grown[place].saturating_add(1);
        }
    }
    grown.splice(at * ROW_WORDS..at * ROW_WORDS, row);
    grown
}

/// The table without some rows; the numbers that name rows above them go down.
pub fn without(words: &[u32], gone: &[bool]) -> Vec<u32> {
    let below: Vec<u32> = gone
        .iter()
        .scan(0, |below, gone| {
            let here = *below;
            *below += u32::from(*gone);
            Some(here)
        })
        .collect();
    let all = gone.iter().filter(|gone| **gone).count() as u32;
    let mut lowered = words.to_vec();
    for place in places(words, is_child) {
        lowered[place] -= below.get(words[place] as usize).copied().unwrap_or(all);
    }
    let kept = lowered.chunks(ROW_WORDS).enumerate();
    let kept = kept.filter(|(row, _)| !gone.get(*row).is_some_and(|gone| *gone));
    kept.flat_map(|(_, row)| row.iter().copied()).collect()
}
