//! Vectors of the judge: every refusal of a table, at its limits and in its order.

use super::{judge_case, levels_case, Setting, Vector};
use crate::recipes::*;
use crate::table::*;

const HIGHEST: u32 = u32::MAX;
const KINDS: [u32; 9] = [
    SKIP, ASSIGN, SEQUENCE, IF, WHILE, OUTPUT, CONSTANT, VARIABLE, BINARY,
];

pub fn vectors() -> Vec<Vector> {
    let mut vectors = word_counts();
    vectors.extend(changed_words());
    vectors.extend(named(unknown_kinds()));
    vectors.extend(named(unused_rows()));
    vectors.extend(named(shared_rows()));
    vectors.extend(named(wrong_depths()));
    vectors.extend(named(precedence()));
    vectors.extend(refused_everywhere());
    vectors
}

/// Tables by name, each for the judge, and as a job where one can say it.
fn named(tables: Vec<(&str, Vec<u32>)>) -> Vec<Vector> {
    let mut vectors = Vec::new();
    for (name, words) in tables {
        vectors.push(judge_case(name, &words));
        if words.len().is_multiple_of(ROW_WORDS) && words.len() <= MOST_ROWS * ROW_WORDS {
            let job = Setting::of_words(words).job_text();
            vectors.push(Vector::job(&format!("table-{name}"), job));
        }
    }
    vectors
}

/// Skips to a number of words: refused by 1, or else by 4.
fn word_counts() -> Vec<Vector> {
    let counts = [
        0, 1, 2, 3, 4, 5, 6, 7, 8, 2047, 2048, 2049, 2050, 2051, 2052, 4096,
    ];
    counts
        .iter()
        .map(|count| judge_case(&format!("{count}-words"), &vec![0; *count]))
        .collect()
}

/// The smallest recipe in which a row of this kind stands after a constant in row 0 and
/// an assignment in row 1; and the number of that row.
fn around(kind: u32) -> (Vec<u32>, usize) {
    let told = |expression: Part| output(0, expression);
    let (part, row) = match kind {
        SKIP => (skip(), 2),
        ASSIGN => (assign(1, constant(5)), 3),
        SEQUENCE => (sequence(skip(), skip()), 4),
        IF => (if_else(variable(0), skip(), skip()), 5),
        WHILE => (while_do(variable(0), skip()), 4),
        OUTPUT => (told(constant(5)), 3),
        CONSTANT => (told(constant(5)), 2),
        VARIABLE => (told(variable(0)), 2),
        _ => (told(binary(SUM, variable(0), constant(1))), 4),
    };
    (lay(&sequence(assign(0, constant(1)), part)), row)
}

/// Each word of each kind, set to what is just right and to what is just wrong.
fn changed_words() -> Vec<Vector> {
    let mut vectors = Vec::new();
    for kind in KINDS {
        let (words, row) = around(kind);
        vectors.push(judge_case(&format!("kind-{kind}"), &words));
        let names = words_of(kind).unwrap_or([Word::Unnamed; 3]);
        for (i, letter) in ["p", "q", "r"].iter().enumerate() {
            for (change, number) in changes(names[i], row as u32) {
                let mut changed = words.clone();
                changed[row * ROW_WORDS + i + 1] = number;
                let name = format!("kind-{kind}-{letter}-{change}");
                vectors.push(judge_case(&name, &changed));
            }
        }
    }
    vectors
}

/// What a word of this sort may be changed to, with a name for the change.
fn changes(word: Word, row: u32) -> Vec<(&'static str, u32)> {
    let highest = ("4294967295", HIGHEST);
    let not_below = vec![("itself", row), ("above", row + 1), highest];
    match word {
        Word::Unnamed => vec![("1", 1), highest],
        Word::Value => vec![("0", 0), highest],
        Word::Variable => vec![("31", 31), ("32", 32), highest],
        Word::Channel => vec![("1", 1), ("2", 2), highest],
        Word::Operator => vec![("5", 5), ("6", 6), highest],
        Word::Expression => [vec![("a-statement", 1), ("used-elsewhere", 0)], not_below].concat(),
        Word::Statement => [vec![("an-expression", 0), ("used-elsewhere", 1)], not_below].concat(),
    }
}

fn unknown_kinds() -> Vec<(&'static str, Vec<u32>)> {
    vec![
        ("kind-6", vec![6, 0, 0, 0]),
        ("kind-7", vec![7, 0, 0, 0]),
        ("kind-11", vec![11, 0, 0, 0]),
        ("kind-4294967295", vec![HIGHEST, 0, 0, 0]),
        ("kind-256", vec![256, 0, 0, 0]),
        ("kind-65536", vec![65536, 0, 0, 0]),
        ("one-row-of-4294967295", vec![HIGHEST; 4]),
        ("all-words-4294967295", vec![HIGHEST; 2048]),
        ("kind-6-in-the-last-row-only", with(&a(), &[(21, 0, 6)])),
    ]
}

const SKIPPED: Row = [SKIP, 0, 0, 0];
const FIVE: Row = [CONSTANT, 5, 0, 0];

/// "a row before the last is a child of no row [...]; or the last row is an expression"
fn unused_rows() -> Vec<(&'static str, Vec<u32>)> {
    let told = [OUTPUT, 0, 0, 0];
    vec![
        ("last-row-a-constant", FIVE.to_vec()),
        ("last-row-a-variable", vec![VARIABLE, 0, 0, 0]),
        (
            "last-row-a-binary",
            [FIVE, FIVE, [BINARY, 0, 0, 1]].concat(),
        ),
        ("orphan-statement", [SKIPPED, SKIPPED].concat()),
        ("orphan-expression", [FIVE, SKIPPED].concat()),
        ("orphan-in-the-middle", [FIVE, SKIPPED, told].concat()),
    ]
}

/// "a child of [...] more than one place"
fn shared_rows() -> Vec<(&'static str, Vec<u32>)> {
    let told = |row: u32| [OUTPUT, 0, row, 0];
    let assigned = [ASSIGN, 0, 0, 0];
    vec![
        (
            "used-twice-by-one-binary",
            [FIVE, [BINARY, 0, 0, 0], told(1)].concat(),
        ),
        (
            "used-twice-by-one-sequence",
            [SKIPPED, [SEQUENCE, 0, 0, 0]].concat(),
        ),
        (
            "used-as-both-branches",
            [FIVE, SKIPPED, [IF, 0, 1, 1]].concat(),
        ),
        (
            "shared-by-two-parents",
            [FIVE, assigned, told(0), [SEQUENCE, 1, 2, 0]].concat(),
        ),
        (
            "shared-statement",
            [SKIPPED, FIVE, [WHILE, 1, 0, 0], [SEQUENCE, 2, 0, 0]].concat(),
        ),
        (
            "binaries-doubled-500-deep",
            doubled(FIVE, |row| [BINARY, 0, row, row], told(499)),
        ),
        (
            "sequences-doubled-500-deep",
            doubled(
                SKIPPED,
                |row| [SEQUENCE, row, row, 0],
                [SEQUENCE, 498, 499, 0],
            ),
        ),
    ]
}

/// Each row uses the one before it twice: a walk over this takes 2 to the 499 steps.
fn doubled(first: Row, twice: impl Fn(u32) -> Row, last: Row) -> Vec<u32> {
    let chain: Vec<Row> = (0..499).map(twice).collect();
    [first.to_vec(), chain.concat(), last.to_vec()].concat()
}

/// 5 is given at the lowest row over any limit, whichever limit that is.
fn wrong_depths() -> Vec<(&'static str, Vec<u32>)> {
    let tall = || output(0, tall_left(17));
    let deep = || nested_then(9, skip());
    let looped = || nested_while(4, skip());
    vec![
        ("height-17-before-nesting-9", lay(&sequence(tall(), deep()))),
        ("nesting-9-before-height-17", lay(&sequence(deep(), tall()))),
        (
            "loop-nesting-4-before-height-17",
            lay(&sequence(looped(), tall())),
        ),
        (
            "height-17-before-loop-nesting-4",
            lay(&sequence(tall(), looped())),
        ),
        ("height-20", lay(&output(0, tall_left(20)))),
        (
            "height-17-in-a-test",
            lay(&if_else(tall_right(17), skip(), skip())),
        ),
        (
            "nesting-9-under-a-sequence",
            lay(&nested_then(8, sequence(skip(), nested_while(1, skip())))),
        ),
        (
            "nesting-8-beside-nesting-8",
            lay(&sequence(nested_then(8, skip()), nested_else(8, skip()))),
        ),
        (
            "loop-nesting-3-beside-loop-nesting-3",
            lay(&sequence(nested_while(3, skip()), nested_while(3, skip()))),
        ),
        (
            "loop-nesting-4-through-an-if",
            lay(&nested_while(2, nested_else(1, nested_while(2, skip())))),
        ),
        ("sequences-400-rows-leaning-right", lay(&lean_right(200))),
    ]
}

/// So many skips: one; (two; (three; ...)).
fn lean_right(skips: u32) -> Part {
    (1..skips).fold(skip(), |rest, _| sequence(skip(), rest))
}

/// "The lowest number from 1 to 6 that applies anywhere is given, with its lowest row."
fn precedence() -> Vec<(&'static str, Vec<u32>)> {
    let changed = |one: Change, other: Change| with(&a(), &[one, other]);
    let both_skips = |child: u32| [SKIPPED, SKIPPED, [SEQUENCE, child, child, 0]].concat();
    vec![
        ("1-before-2", [lay(&d()), vec![6]].concat()),
        ("1-before-2-over-512-rows", vec![6; 2052]),
        (
            "2-in-row-9-before-3-in-row-1",
            changed((1, 2, 1), (9, 3, 9)),
        ),
        ("2-in-row-4-and-in-row-9", changed((4, 0, 6), (9, 0, 7))),
        (
            "3-in-row-15-before-4-in-row-0",
            changed((3, 2, 0), (15, 1, 15)),
        ),
        ("3-in-row-1-and-in-row-15", changed((1, 2, 1), (15, 1, 15))),
        ("4-in-row-28-before-5-in-row-27", shared_after_deep()),
        ("4-orphan-before-shared", both_skips(1)),
        ("4-shared-before-orphan", both_skips(0)),
        (
            "4-orphan-before-last-row-an-expression",
            [SKIPPED, FIVE].concat(),
        ),
    ]
}

/// A row, one of its words, and the number to put there.
type Change = (usize, usize, u32);

fn with(part: &Part, changes: &[Change]) -> Vec<u32> {
    let mut words = lay(part);
    for (row, word, number) in changes {
        words[row * ROW_WORDS + word] = *number;
    }
    words
}

/// Nesting 9 in row 27; then two skips, of which the sequence in row 30 uses one twice.
fn shared_after_deep() -> Vec<u32> {
    let deep = sequence(nested_then(9, skip()), sequence(skip(), skip()));
    with(&deep, &[(30, 2, 28)])
}

/// One table for each of 1 to 5: what run and level check answer when refused.
fn refused_everywhere() -> Vec<Vector> {
    let tall = lay(&output(0, tall_left(17)));
    let tables = [
        ("1", vec![0; 3]),
        ("2", vec![6, 0, 0, 0]),
        ("3", vec![OUTPUT, 0, 0, 0]),
        ("4", vec![CONSTANT, 5, 0, 0]),
        ("5", tall.clone()),
    ];
    let given = |words: &[u32]| {
        let inputs: Vec<u32> = (0..32).map(|variable| HIGHEST - variable).collect();
        let setting = Setting::of_words(words.to_vec()).inputs(&inputs);
        setting.levels(0x8000_0005)
    };
    let mut vectors = Vec::new();
    for (number, words) in &tables {
        let setting = given(words).lent(5);
        let name = format!("refused-{number}");
        vectors.push(Vector::case(&format!("run-{name}"), setting.case_text()));
        vectors.push(levels_case(&name, words, 0x8000_0005));
        let no_budget = setting.budget(0).case_text();
        vectors.push(Vector::case(&format!("run-{name}-budget-0"), no_budget));
    }
    let both = given(&tall).lent(16385).case_text();
    vectors.push(Vector::case("run-refused-5-before-6", both));
    vectors
}
