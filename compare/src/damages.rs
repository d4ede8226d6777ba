//! Damages to a table: each is what one sentence of "Numbers for no" is about.

use independent::marks::VARIABLES;
use independent::random::{Random, OPERATORS};
use independent::table::{Row, Word, CONSTANT, MOST_ROWS, ROW_WORDS, SKIP};

use crate::kinds::Kind;
use crate::tables::Table;
use crate::words::{is_child, is_expression, places, with_row};

/// A damage: the number that it brings, and how it is done; not done where the table has no
/// place for it.
#[derive(Clone, Copy)]
struct Damage {
    kind: Kind,
    number: u32,
    apply: fn(&mut Random, &mut Vec<u32>) -> Option<()>,
}

const fn damage(
    kind: Kind,
    number: u32,
    apply: fn(&mut Random, &mut Vec<u32>) -> Option<()>,
) -> Damage {
    Damage {
        kind,
        number,
        apply,
    }
}

const DAMAGES: [Damage; 10] = [
    damage(Kind::WordCount, 1, odd_words),
    damage(Kind::NoRows, 1, no_rows),
    damage(Kind::TooManyRows, 1, many_rows),
    damage(Kind::UnknownKind, 2, unknown_kind),
    damage(Kind::OutOfRange, 2, out_of_range),
    damage(Kind::UnnamedWord, 2, unnamed_word),
    damage(Kind::ChildNotBelow, 3, child_not_below),
    damage(Kind::ChildOfWrongSort, 3, child_of_wrong_sort),
    damage(Kind::Orphan, 4, orphan),
    damage(Kind::SharedRow, 4, shared_row),
];

/// The table with one damage or a few; at times with any words changed.
pub fn damaged(random: &mut Random, table: Table) -> Table {
    if random.percent(15) {
        return Table {
            words: random.damaged(&table.words),
            kind: Kind::AnyWords,
            number: 0,
        };
    }
    let mut words = table.words;
    let mut done = vec![(table.kind, table.number)];
    for _ in 0..random.one_of(&[1, 1, 2, 3]) {
        let damage = random.one_of(&DAMAGES);
        if (damage.apply)(random, &mut words).is_some() {
            done.push((damage.kind, damage.number));
        }
    }
    let (kind, number) = together(&done);
    Table {
        words,
        kind,
        number,
    }
}

/// What a table is a case of that has all these damages: "the lowest number" is given.
fn together(done: &[(Kind, u32)]) -> (Kind, u32) {
    let damages: Vec<(Kind, u32)> = done.iter().copied().filter(|(_, no)| *no > 0).collect();
    let lowest = damages.iter().map(|(_, number)| *number).min();
    match (damages.as_slice(), lowest) {
        ([], _) | (_, None) => done[0],
        ([one], _) => *one,
        (all, Some(lowest)) if all.iter().all(|(_, number)| *number == lowest) => {
            (Kind::SeveralRows, lowest)
        }
        (_, Some(lowest)) => (Kind::SeveralNumbers, lowest),
    }
}

/// One of some places; none where there is no place.
fn one_of(random: &mut Random, places: &[usize]) -> Option<usize> {
    let most = u32::try_from(places.len()).ok().filter(|most| *most > 0)?;
    Some(places[random.below(most) as usize])
}

fn rows(words: &[u32]) -> usize {
    words.len() / ROW_WORDS
}

/// "word count not a multiple of 4"
fn odd_words(random: &mut Random, words: &mut Vec<u32>) -> Option<()> {
    let odd = 1 + random.below(ROW_WORDS as u32 - 1) as usize;
    if random.percent(50) {
        words.truncate(words.len().checked_sub(odd)?);
    } else {
        let more: Vec<u32> = (0..odd).map(|_| random.value()).collect();
        words.extend(more);
    }
    Some(())
}

/// "or 0 rows"
fn no_rows(_: &mut Random, words: &mut Vec<u32>) -> Option<()> {
    words.clear();
    Some(())
}

/// "or over 512 rows"
fn many_rows(random: &mut Random, words: &mut Vec<u32>) -> Option<()> {
    let over = MOST_ROWS + 1 + random.one_of(&[0, 0, 1, 100]);
    words.resize(over.max(rows(words)) * ROW_WORDS, SKIP);
    Some(())
}

/// "unknown kind"
fn unknown_kind(random: &mut Random, words: &mut Vec<u32>) -> Option<()> {
    let most = u32::try_from(rows(words)).ok().filter(|most| *most > 0)?;
    let row = random.below(most) as usize;
    words[row * ROW_WORDS] = random.one_of(&[6, 7, 11, 12, 256, u32::MAX]);
    Some(())
}

/// "named word out of range (variable over 31, channel over 1, operator over 5)"
fn out_of_range(random: &mut Random, words: &mut Vec<u32>) -> Option<()> {
    let role = random.one_of(&[Word::Variable, Word::Channel, Word::Operator]);
    let at = one_of(random, &places(words, |other| other == role))?;
    let first = match role {
        Word::Variable => VARIABLES as u32,
        Word::Channel => 2,
        _ => OPERATORS,
    };
    words[at] = random.one_of(&[first, first, first + 1, 1 << 16, u32::MAX]);
    Some(())
}

/// "unnamed word not 0"
fn unnamed_word(random: &mut Random, words: &mut Vec<u32>) -> Option<()> {
    let at = one_of(random, &places(words, |role| role == Word::Unnamed))?;
    words[at] = random.one_of(&[1, 1, 2, 1 << 31, u32::MAX]);
    Some(())
}

/// "a child's number not below its parent's"
fn child_not_below(random: &mut Random, words: &mut Vec<u32>) -> Option<()> {
    let at = one_of(random, &places(words, is_child))?;
    let (parent, rows) = ((at / ROW_WORDS) as u32, rows(words) as u32);
    words[at] = random.one_of(&[parent, parent, parent + 1, rows, MOST_ROWS as u32, u32::MAX]);
    words[at] = words[at].max(parent);
    Some(())
}

/// "or a child of the wrong sort"
fn child_of_wrong_sort(random: &mut Random, words: &mut Vec<u32>) -> Option<()> {
    other_child(random, words, |asked, found| asked != found)
}

/// "a row before the last is a child of [..] more than one place"; the child that was named
/// before is a child of none.
fn shared_row(random: &mut Random, words: &mut Vec<u32>) -> Option<()> {
    other_child(random, words, |asked, found| asked == found)
}

/// Names another row as a child, by whether an expression is asked for and whether one is found.
fn other_child(
    random: &mut Random,
    words: &mut [u32],
    fits: impl Fn(bool, bool) -> bool,
) -> Option<()> {
    let at = one_of(random, &places(words, is_child))?;
    let asked = places(words, |role| role == Word::Expression).contains(&at);
    let below: Vec<usize> = (0..at / ROW_WORDS)
        .filter(|row| *row != words[at] as usize && fits(asked, is_expression(words, *row)))
        .collect();
    words[at] = one_of(random, &below)? as u32;
    Some(())
}

/// "a row before the last is a child of no row"
fn orphan(random: &mut Random, words: &mut Vec<u32>) -> Option<()> {
    let most = u32::try_from(rows(words)).ok().filter(|most| *most > 0)?;
    let leaf: Row = [random.one_of(&[SKIP, CONSTANT]), 0, 0, 0];
    *words = with_row(words, random.below(most) as usize, leaf);
    Some(())
}
