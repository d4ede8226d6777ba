//! Single rows: values that follow from the request's sentences, and what runs make of them.

use super::*;
use independent::random::Random;
use independent::recipes::*;
use independent::rows::{assigned_at, row_at, value_at, Valued};

/// The values and levels of all rows.
fn values(words: &[u32], given: Given) -> Vec<(u32, u32)> {
    let rows = 0..(words.len() / 4) as u32;
    let valued = rows.map(|at| value_at(words, at, &given.memory, given.marks));
    let valued = valued.map(|valued| valued.expect("the table is accepted"));
    valued
        .map(|Valued { value, level }| (value, level))
        .collect()
}

fn assigned(words: &[u32]) -> Vec<u32> {
    let rows = 0..(words.len() / 4) as u32;
    let assigned = rows.map(|at| assigned_at(words, at));
    let assigned = assigned.map(|assigned| assigned.expect("the table is accepted"));
    assigned.collect()
}

/// The marked variables that are read, and no others; "Values do not matter".
#[test]
fn levels() {
    // v0, v1, v0 - v1; the output.
    let words = lay(&output(0, binary(DIFFERENCE, variable(0), variable(1))));
    let given = inputs(&[7, 9]);
    let with = |marks: u32| values(&words, given.marks(marks));
    let difference = 4294967294;
    assert_eq!(with(0), [(7, 0), (9, 0), (difference, 0), (0, 0)]);
    assert_eq!(with(1), [(7, 1), (9, 0), (difference, 1), (0, 0)]);
    assert_eq!(with(2), [(7, 0), (9, 2), (difference, 2), (0, 0)]);
    assert_eq!(with(7), [(7, 1), (9, 2), (difference, 3), (0, 0)]);
    assert_eq!(with(4), with(0));
    // v0, v0, v0 - v0; the output.
    assert_eq!(values(&lay(&b()), given), [(7, 1), (7, 1), (0, 1), (0, 0)]);
}

/// v31's bit is the highest.
#[test]
fn the_last_variable() {
    let words = lay(&assign(31, variable(31)));
    let mut given = GIVEN.marks(1 << 31);
    given.memory[31] = 5;
    assert_eq!(values(&words, given), [(5, 1 << 31), (0, 0)]);
    assert_eq!(assigned(&words), [0, 1 << 31]);
}

/// "every variable that stands on the left of an assignment anywhere in the statement"
#[test]
fn assignments() {
    let one = |variable: u32| assign(variable, constant(1));
    let looped = while_do(variable(4), sequence(one(1), one(2)));
    let words = lay(&if_else(variable(5), looped, one(3)));
    // Test, while test, v1:=1, v2:=1, both, while, v3:=1, if; with the constants.
    assert_eq!(assigned(&words), [0, 0, 0, 2, 0, 4, 6, 6, 0, 8, 14]);
    assert_eq!(assigned(&lay(&i())), [0, 0]);
}

#[test]
fn rows_that_are_not_there() {
    let words = lay(&i());
    assert_eq!(row_at(&words, 0), Some([8, 5, 0, 0]));
    assert_eq!(row_at(&words, 1), Some([5, 0, 0, 0]));
    let nothing = Valued { value: 0, level: 0 };
    for at in [2, 3, 1 << 30, u32::MAX] {
        assert_eq!(row_at(&words, at), None);
        assert_eq!(value_at(&words, at, &[7; 32], u32::MAX), Ok(nothing));
        assert_eq!(assigned_at(&words, at), Ok(0));
    }
    assert_eq!(row_at(&words[..7], 1), None);
    assert_eq!(row_at(&[], 0), None);
}

#[test]
fn refused_tables() {
    for (words, refused) in [
        (vec![8, 5, 0], refusal(1, 0)),
        (vec![6, 0, 0, 0], refusal(2, 0)),
        (vec![5, 0, 0, 0], refusal(3, 0)),
        (vec![8, 5, 0, 0], refusal(4, 0)),
        (lay(&nested_while(4, skip())), refusal(5, 8)),
    ] {
        for at in [0, 1, 100] {
            assert_eq!(value_at(&words, at, &[7; 32], 1), Err(refused));
            assert_eq!(assigned_at(&words, at), Err(refused));
        }
    }
}

/// An output's record is the value of its expression's row, and it is denied exactly where
/// that row's level is not empty.
#[test]
fn values_are_those_of_outputs() {
    let mut random = Random::new(11);
    let mut denied = 0;
    for _ in 0..2_000 {
        let words = lay(&output(0, random.tall(4)));
        let given = Given {
            memory: random.memory(),
            marks: random.marks(),
            ..GIVEN
        };
        let row = (words.len() / 4 - 2) as u32;
        let valued = value_at(&words, row, &given.memory, given.marks);
        let valued = valued.expect("the table is accepted");
        let told = run_words(&words, given.marks(0)).records;
        assert_eq!(told, [(0, valued.value)]);
        let ran = run_words(&words, given);
        assert_eq!(ran.verdict() == 1, valued.level != 0);
        denied += usize::from(valued.level != 0);
    }
    assert!(denied > 500 && denied < 1_500, "{denied}");
}

/// Under a provisional test, what is not taken is marked: just what its row may assign.
#[test]
fn assignments_are_those_of_a_branch_not_taken() {
    let mut random = Random::new(12);
    for _ in 0..2_000 {
        let other = random.statement(3, 0);
        let words = lay(&if_else(variable(31), skip(), other));
        let mut given = GIVEN.marks(1 << 31);
        given.memory[31] = 1;
        let row = (words.len() / 4 - 2) as u32;
        let assigned = assigned_at(&words, row).expect("the table is accepted");
        assert_eq!(run_words(&words, given).marks, assigned | 1 << 31);
    }
}
