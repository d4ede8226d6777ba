//! Vectors of single rows: what stands there, its value and level, what it may assign.

use super::{rows_case, Setting, Vector};
use crate::random::Random;
use crate::recipes::*;
use crate::table::{CONSTANT, OUTPUT, ROW_WORDS};
use crate::tree::{PROVISIONAL, SETTLED};

const RANDOM_TABLES: u64 = 4;
/// How many words a random recipe has.
const RANDOM_WORDS: std::ops::RangeInclusive<usize> = 40..=96;

pub fn vectors() -> Vec<Vector> {
    let mut vectors = levels();
    vectors.extend(assignments());
    vectors.extend(refused());
    vectors.push(longest());
    vectors.extend(random_tables());
    vectors
}

/// Row numbers that the table does not have: the next one, one whose first word's number is 2^32, and the highest.
fn absent(words: &[u32]) -> [u32; 3] {
    [(words.len() / ROW_WORDS) as u32, 1 << 30, u32::MAX]
}

/// A case that asks every row, and such as are not there.
fn every_row(name: &str, setting: &Setting) -> Vector {
    let absent = absent(&setting.words);
    let rows: Vec<u32> = (0..absent[0]).chain(absent).collect();
    rows_case(name, setting, &rows)
}

/// Expressions with some of their variables marked, and variables marked that they do not read.
fn levels() -> Vec<Vector> {
    let whole = sequence(
        output(SETTLED, variable(0)),
        output(PROVISIONAL, variable(1)),
    );
    let read_twice = Setting::of(&b()).inputs(&[7]);
    let one = binary(DIFFERENCE, variable(0), variable(1));
    let other = binary(SUM, variable(2), variable(31));
    let sides = Setting::of(&output(SETTLED, binary(SUM, one, other))).inputs(&[7, 9, 4]);
    let chained = (0..6).fold(variable(0), |left, operator| {
        binary(operator, left, variable(operator + 1))
    });
    let operators = Setting::of(&assign(8, chained)).inputs(&[7, 9, 4, 3, 5, 0, 2]);
    vec![
        every_row("whole-case", &Setting::of(&whole).inputs(&[7, 9]).levels(2)),
        every_row("b", &read_twice),
        every_row("marked-on-both-sides", &sides.clone().levels(0x8000_0002)),
        every_row("marked-elsewhere", &sides.levels(0x7FFF_FFF8)),
        every_row("operators", &operators.levels(0b0110_1010)),
    ]
}

/// Every kind of statement with assignments in all of its places.
fn assignments() -> Vec<Vector> {
    let one = |variable: u32| assign(variable, constant(1));
    let looped = while_do(
        variable(2),
        sequence(one(3), if_else(variable(4), one(5), skip())),
    );
    let otherwise = sequence(output(PROVISIONAL, variable(6)), assign(31, variable(30)));
    let all_kinds = sequence(one(0), if_else(variable(1), looped, otherwise));
    let setting = |words: Vec<u32>| Setting::of_words(words).levels(u32::MAX);
    vec![
        every_row("assignments", &setting(lay(&all_kinds))),
        every_row(
            "assignments-rows-backward",
            &setting(lay_backward(&all_kinds)),
        ),
    ]
}

/// A table for each of 1 to 5. Its rows can be read all the same, and so can unknown kinds.
fn refused() -> Vec<Vector> {
    let unknown = [6, 7, 11, 256, 65544, u32::MAX].map(|kind| [kind, 1, 2, 3]);
    let tables = [
        ("refused-1-no-words", vec![]),
        ("refused-1-3-words", vec![CONSTANT; 3]),
        ("refused-1-5-words", vec![CONSTANT; 5]),
        ("refused-2", unknown.concat()),
        ("refused-3", vec![OUTPUT, 0, 0, 0]),
        ("refused-4", vec![CONSTANT, 5, 0, 0]),
        ("refused-5", lay(&nested_while(4, skip()))),
    ];
    let every = tables.map(|(name, words)| every_row(name, &Setting::of_words(words)));
    every.into()
}

/// 512 rows: 171 assignments, each but the first joined to those before it by a row.
fn longest() -> Vector {
    let assigned = (0..171).map(|at| assign(at % 32, variable(at * 7 % 32)));
    let inputs: Vec<u32> = (0..32).map(|variable| u32::MAX - variable).collect();
    let setting = Setting::of(&all_left(assigned.collect())).inputs(&inputs);
    let mut rows = vec![0, 1, 4, 31, 93, 94, 255, 256, 509, 510, 511];
    rows.extend(absent(&setting.words));
    rows_case("k-512-rows", &setting.levels(0xF0F0_0F0F), &rows)
}

/// Random recipes that are short; then one of the greatest height, and one of the greatest nestings.
fn random_tables() -> Vec<Vector> {
    let mut vectors = Vec::new();
    for seed in 1..=RANDOM_TABLES {
        let mut random = Random::new(2000 + seed);
        let mut words = random.recipe();
        while !RANDOM_WORDS.contains(&words.len()) {
            words = random.recipe();
        }
        vectors.push(random_rows(random, &format!("random-{seed:02}"), words));
    }
    let mut random = Random::new(3001);
    let tall = assign(random.below(32), random.tall(16));
    vectors.push(random_rows(random, "random-height-16", lay(&tall)));
    let mut random = Random::new(3002);
    let inmost = random.simple();
    let nest = random.nest(8, 3, 0, inmost);
    let words = random.reordered(&lay(&nest));
    vectors.push(random_rows(random, "random-nesting-8", words));
    vectors
}

fn random_rows(mut random: Random, name: &str, words: Vec<u32>) -> Vector {
    let setting = Setting::of_words(words).inputs(&random.memory());
    every_row(name, &setting.levels(random.number()))
}
