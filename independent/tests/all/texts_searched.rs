//! The reader beside a search: what recipes there are, and how recipes can begin, is gathered
//! from the grammar itself, without reading any text.

use std::collections::{BTreeMap, BTreeSet};

use independent::recipes::{
    assign, binary, constant, if_else, lay, output, sequence, skip, variable, while_do, Part,
};
use independent::text::{read, Reading};

type Words = Vec<&'static str>;
type Language = BTreeSet<Words>;

/// A name, and one of the ways to make what it names; what is no name is a word of the text.
const GRAMMAR: [(&str, &str); 19] = [
    ("recipe", "block"),
    ("recipe", "declaration ; recipe"),
    ("declaration", "in variable settled"),
    ("declaration", "in variable provisional"),
    ("declaration", "in variable"),
    ("block", "statement"),
    ("block", "statement ; block"),
    ("statement", "skip"),
    ("statement", "set variable = expression"),
    ("statement", "if expression then block else block end"),
    ("statement", "while expression do block end"),
    ("statement", "settled expression"),
    ("statement", "provisional expression"),
    ("expression", "1"),
    ("expression", "variable"),
    ("expression", "( expression operator expression )"),
    ("variable", "v0"),
    ("operator", "+"),
    ("operator", "="),
];

/// A word of the form of words, that no recipe has.
const STRANGE: &str = "x";

fn is_name(word: &str) -> bool {
    GRAMMAR.iter().any(|(name, _)| *name == word)
}

/// Every word of the grammar, and a strange one.
fn alphabet() -> Words {
    let words = GRAMMAR.iter().flat_map(|(_, way)| way.split(' '));
    let words: BTreeSet<&str> = words.filter(|word| !is_name(word)).collect();
    words.into_iter().chain([STRANGE]).collect()
}

/// The lists of a language, each cut to `most` words.
fn cut(language: &Language, most: usize) -> Language {
    let cut = |words: &Words| words.iter().take(most).copied().collect();
    language.iter().map(cut).collect()
}

/// The lists of one language followed by those of another, each cut to `most` words.
fn joined(one: &Language, other: &Language, most: usize) -> Language {
    let ends: Vec<Language> = (0..=most).map(|room| cut(other, room)).collect();
    let mut joined = Language::new();
    for begin in one {
        for end in &ends[most - begin.len()] {
            joined.insert([begin.as_slice(), end].concat());
        }
    }
    joined
}

/// What a way of the grammar makes of what is known of the names in it.
fn made(way: &'static str, known: &BTreeMap<&str, Language>, most: usize) -> Language {
    let empty = Language::from([vec![]]);
    way.split(' ').fold(empty, |begun, word| {
        if is_name(word) {
            known
                .get(word)
                .map_or(Language::new(), |next| joined(&begun, next, most))
        } else {
            joined(&begun, &Language::from([vec![word]]), most)
        }
    })
}

/// Every recipe of fewer than `most` words, and the first `most` words of every other one.
/// There are finitely many lists of so few words, so the growing ends; what then is known
/// grows by no way of the grammar, so recipes of every length are cut into it.
fn recipes_cut(most: usize) -> Language {
    let mut known: BTreeMap<&str, Language> = BTreeMap::new();
    loop {
        let before: usize = known.values().map(Language::len).sum();
        // What is named last needs the least of the others.
        for (name, way) in GRAMMAR.into_iter().rev() {
            let made = made(way, &known, most);
            known.entry(name).or_default().extend(made);
        }
        if known.values().map(Language::len).sum::<usize>() == before {
            return known.remove("recipe").unwrap_or_default();
        }
    }
}

/// What is to be known of all lists of fewer than `most` words.
struct Known {
    recipes: Language,
    beginnings: Language,
}

impl Known {
    fn of(most: usize) -> Known {
        let mut recipes = recipes_cut(most);
        let cuts = recipes
            .iter()
            .flat_map(|words| (0..=words.len()).map(|length| words[..length].to_vec()));
        let beginnings = cuts.collect();
        recipes.retain(|words| words.len() < most);
        Known {
            recipes,
            beginnings,
        }
    }

    /// The refusal, and the word that is handed back; none for the empty part at the end.
    fn answer(&self, words: &[&'static str]) -> (u32, Option<usize>) {
        let begins = |length: &usize| self.beginnings.contains(&words[..*length]);
        if let Some(length) = (1..=words.len()).find(|length| !begins(length)) {
            return (10, Some(length - 1));
        }
        if !self.recipes.contains(words) {
            return (10, None);
        }
        let mut declarations = (0..words.len()).filter(|at| words[*at] == "in");
        match declarations.nth(1) {
            Some(again) => (11, Some(again + 1)),
            None => (0, None),
        }
    }
}

/// Refusal, start and length of what the reader hands back for words with a space between.
fn read_words(words: &[&str]) -> (u32, usize, usize) {
    let reading = read(words.join(" ").as_bytes(), &mut [0; 2048]);
    (reading.refused, reading.start, reading.length)
}

/// The same for an answer about words.
fn placed(words: &[&str], (refused, word): (u32, Option<usize>)) -> (u32, usize, usize) {
    match word {
        Some(0) => (refused, 0, words[0].len()),
        Some(at) => (refused, words[..at].join(" ").len() + 1, words[at].len()),
        None => (refused, words.join(" ").len(), 0),
    }
}

/// Whether the reader answers what is known.
fn hold(known: &Known, words: &[&'static str]) {
    let expected = placed(words, known.answer(words));
    assert_eq!(read_words(words), expected, "{}", words.join(" "));
}

/// Every list of up to four words.
#[test]
fn short_lists() {
    let (known, alphabet) = (Known::of(5), alphabet());
    let mut lists: Vec<Words> = vec![vec![]];
    for length in 0..=4 {
        assert_eq!(lists.len(), alphabet.len().pow(length));
        lists.iter().for_each(|words| hold(&known, words));
        let longer = lists.iter().flat_map(|words| {
            let further = |word: &&'static str| [words.as_slice(), &[*word]].concat();
            alphabet.iter().map(further).collect::<Vec<Words>>()
        });
        lists = longer.collect();
    }
}

/// Every beginning of up to seven words with every further word; a word that does not go on
/// is the faulty one whatever comes after it.
#[test]
fn beginnings_and_a_further_word() {
    let (known, alphabet) = (Known::of(9), alphabet());
    let (mut went_on, mut faulty) = (0, 0);
    for begin in known.beginnings.iter().filter(|begin| begin.len() <= 7) {
        for word in &alphabet {
            let words = [begin.as_slice(), &[*word]].concat();
            hold(&known, &words);
            if known.beginnings.contains(&words) {
                went_on += 1;
            } else {
                faulty += 1;
                hold(&known, &[&words, &["end", ";", "skip"][..]].concat());
            }
        }
    }
    assert!(went_on > 6_000 && faulty > 10_000, "{went_on} {faulty}");
}

/// A part of a recipe: its words, and what it stands for.
type Written = (Words, Part);

fn words(words: &[&[&'static str]]) -> Words {
    words.concat()
}

/// Every two numbers, none 0, that make `sum`.
fn splits(sum: usize) -> impl Iterator<Item = (usize, usize)> {
    (1..sum).map(move |one| (one, sum - one))
}

/// Every expression of exactly so many words, as a tree.
fn expressions(length: usize) -> Vec<Written> {
    if length == 1 {
        return vec![(vec!["1"], constant(1)), (vec!["v0"], variable(0))];
    }
    let mut all = Vec::new();
    for (one, other) in splits(length.saturating_sub(3)) {
        for (left, left_part) in expressions(one) {
            for (right, right_part) in expressions(other) {
                for (sign, operator) in [("+", 0), ("=", 4)] {
                    let part = binary(operator, left_part.clone(), right_part.clone());
                    all.push((words(&[&["("], &left, &[sign], &right, &[")"]]), part));
                }
            }
        }
    }
    all
}

/// Every statement without statements in it.
fn simple(length: usize) -> Vec<Written> {
    let mut all = Vec::new();
    if length == 1 {
        all.push((vec!["skip"], skip()));
    }
    for (channel, word) in [(0, "settled"), (1, "provisional")] {
        for (told, part) in expressions(length - 1) {
            all.push((words(&[&[word], &told]), output(channel, part)));
        }
    }
    for (value, part) in expressions(length.saturating_sub(3)) {
        all.push((words(&[&["set", "v0", "="], &value]), assign(0, part)));
    }
    all
}

fn statements(length: usize) -> Vec<Written> {
    let mut all = simple(length);
    for (one, other) in splits(length.saturating_sub(3)) {
        for (test, test_part) in expressions(one) {
            for (body, part) in blocks(other) {
                let part = while_do(test_part.clone(), part);
                all.push((words(&[&["while"], &test, &["do"], &body, &["end"]]), part));
            }
        }
    }
    for (one, others) in splits(length.saturating_sub(4)) {
        for (test, test_part) in expressions(one) {
            for ((then, then_part), (other, other_part)) in two_blocks(others) {
                let begin = words(&[&["if"], &test, &["then"], &then]);
                let part = if_else(test_part.clone(), then_part, other_part);
                all.push((words(&[&begin, &["else"], &other, &["end"]]), part));
            }
        }
    }
    all
}

fn two_blocks(length: usize) -> Vec<(Written, Written)> {
    let mut all = Vec::new();
    for (one, other) in splits(length) {
        for first in blocks(one) {
            for second in blocks(other) {
                all.push((first.clone(), second));
            }
        }
    }
    all
}

fn blocks(length: usize) -> Vec<Written> {
    let mut all = statements(length);
    for (one, other) in splits(length - 1) {
        for (first, first_part) in statements(one) {
            for (rest, rest_part) in blocks(other) {
                let part = sequence(first_part.clone(), rest_part);
                all.push((words(&[&first, &[";"], &rest]), part));
            }
        }
    }
    all
}

/// Every recipe, with the marks that it declares.
fn recipes(length: usize) -> Vec<(Written, u32)> {
    let blocks = blocks(length).into_iter().map(|written| (written, 0));
    let mut all: Vec<(Written, u32)> = blocks.collect();
    let declarations: [(&[&str], u32); 3] = [
        (&["in", "v0", ";"], 0),
        (&["in", "v0", "settled", ";"], 0),
        (&["in", "v0", "provisional", ";"], 1),
    ];
    for (declaration, mark) in declarations {
        if length > declaration.len() {
            for ((rest, part), marks) in recipes(length - declaration.len()) {
                all.push(((words(&[declaration, &rest]), part), mark | marks));
            }
        }
    }
    all
}

/// Recipes that are different trees, or declare differently, have different texts: "each text
/// has a single reading". And the trees are what the grammar makes.
#[test]
fn single_readings() {
    const MOST: usize = 8;
    let trees = (1..MOST).flat_map(recipes).map(|((words, _), _)| words);
    let trees: Vec<Words> = trees.collect();
    let texts: Language = trees.iter().cloned().collect();
    assert_eq!(texts.len(), trees.len());
    assert_eq!(texts, Known::of(MOST).recipes);
}

/// Every recipe of up to eleven words has the rows of its tree, and the marks; those are left
/// out that declare the one variable again.
#[test]
fn readings_of_all_short_recipes() {
    let mut count = 0;
    for ((words, part), marks) in (1..=11).flat_map(recipes) {
        if words.iter().filter(|word| **word == "in").count() > 1 {
            continue;
        }
        let (text, rows) = (words.join(" "), lay(&part));
        let mut table = [0; 2048];
        let reading = read(text.as_bytes(), &mut table);
        let accepted = Reading {
            refused: 0,
            at: 0,
            rows: rows.len() / 4,
            marks,
            start: text.len(),
            length: 0,
        };
        assert_eq!(reading, accepted, "{text}");
        assert_eq!(table[..rows.len()], rows, "{text}");
        count += 1;
    }
    assert!(count > 2_000, "{count}");
}
