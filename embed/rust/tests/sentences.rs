//! The sentences and the version are those of the list that the header for C is tried with.

use buzorinde::{
    check, judge, read, run, CheckVerdict, Ended, Refusal, Status, Verdict, VARIABLES,
};

/// A line of the list for each number up to the first beyond the last case.
fn lines<T: ToString>(
    name: &str,
    last: u32,
    from_number: fn(u32) -> Option<T>,
    none: &str,
) -> String {
    let line = |number| {
        let sentence = from_number(number).map_or(none.to_string(), |case| case.to_string());
        format!("{name} {number}: {sentence}\n")
    };
    (0..=last + 1).map(line).collect()
}

#[test]
fn c_and_rust_say_the_same() {
    let said = [
        format!("version {}\n", env!("CARGO_PKG_VERSION")),
        lines(
            "status",
            2,
            Status::from_number,
            "no status has this number",
        ),
        lines(
            "verdict",
            3,
            Verdict::from_number,
            "no verdict of a run has this number",
        ),
        lines(
            "check",
            1,
            CheckVerdict::from_number,
            "no verdict of a level check has this number",
        ),
        lines(
            "refusal",
            13,
            Refusal::from_number,
            "no refusal has this number",
        ),
    ];
    assert_eq!(said.concat(), include_str!("../../sentences.expected"));
}

/// The whole case of docs/RULES.md, its run B (output settled v0 - v0), and a table of no rows.
const WHOLE: [u32; 20] = [9, 0, 0, 0, 5, 0, 0, 0, 9, 1, 0, 0, 5, 1, 2, 0, 2, 1, 3, 0];
const B: [u32; 16] = [9, 0, 0, 0, 9, 0, 0, 0, 10, 1, 0, 1, 5, 0, 2, 0];
const EMPTY: [u32; 0] = [];

#[test]
fn an_answer_says_its_row() {
    let ended = |table: &[u32], budget, words| {
        run(table, &mut [0; VARIABLES], 1, budget, &mut vec![0; words]).ended
    };
    let refused = "refused 1 at row 0: the table's words are not a multiple of 4, or it has 0 rows or more than 512";
    assert_eq!(judge(&B).to_string(), "accepted");
    assert_eq!(judge(&EMPTY).to_string(), refused);
    assert_eq!(
        check(&B, 2).checked.to_string(),
        "pass: no output on the settled channel can be provisional"
    );
    assert_eq!(
        check(&B, 1).checked.to_string(),
        "fail at row 3: an output on the settled channel may be provisional"
    );
    assert_eq!(check(&EMPTY, 1).checked.to_string(), refused);
    assert_eq!(
        ended(&B, 100, 16).to_string(),
        "stopped at row 3 because of v0: the monitor stopped the run before it told the settled channel something provisional"
    );
    assert_eq!(
        Ended::Stopped { row: 5, because: 5 }.to_string(),
        "stopped at row 5 because of v0 v2: the monitor stopped the run before it told the settled channel something provisional"
    );
    assert_eq!(
        Ended::Stopped { row: 2, because: 0 }.to_string(),
        "stopped at row 2 because of its context: the monitor stopped the run before it told the settled channel something provisional"
    );
    assert_eq!(
        ended(&B, 0, 16).to_string(),
        "spent: the budget was used up before the run had finished"
    );
    assert_eq!(ended(&EMPTY, 100, 16).to_string(), refused);
    let settled =
        |words: usize| run(&WHOLE, &mut [0; VARIABLES], 2, 100, &mut vec![0; words]).ended;
    assert_eq!(settled(4).to_string(), "done: the run has finished");
    assert_eq!(
        settled(3).to_string(),
        "no room at row 3: the trace has no room for the next record"
    );
    assert_eq!(
        settled(16385).to_string(),
        "refused 6 at row 0: the trace that is lent has more than 16,384 words"
    );
}

/// Four loops, one within the other; the outermost is row 8.
const DEEP: &str = "while 0 do while 0 do while 0 do while 0 do skip end end end end";

#[test]
fn a_reading_says_what_the_text_is() {
    let said = |text: &str| read(text.as_bytes(), &mut [0; 20]).read.to_string();
    assert_eq!(
        said("in v1 provisional; settled v0; provisional v1"),
        "a recipe of 5 rows with marks 2"
    );
    assert_eq!(
        said("skip end"),
        "refused 10 at row 0: no recipe goes on with this word, or the text ends before its recipe does"
    );
    assert_eq!(
        said(DEEP),
        "refused 5 at row 8: the expression is higher than 16, or statements nest deeper than 8 or loops than 3"
    );
    assert_eq!(
        said("skip; skip; skip; skip"),
        "refused 13 at row 0: the table that is lent has fewer words than the recipe's rows take"
    );
}

#[test]
fn an_answer_has_its_number() {
    let ended = |table: &[u32], marks| run(table, &mut [0; VARIABLES], marks, 100, &mut []).ended;
    assert_eq!(ended(&B, 1).verdict(), Some(Verdict::Stopped));
    assert_eq!(ended(&B, 1).refusal(), None);
    assert_eq!(ended(&B, 2).verdict().map(Verdict::number), Some(3));
    assert_eq!(ended(&EMPTY, 1).verdict(), None);
    assert_eq!(ended(&EMPTY, 1).refusal(), Some(Refusal::Count));
    assert_eq!(check(&B, 1).checked.verdict(), Some(CheckVerdict::Fail));
    assert_eq!(check(&B, 2).checked.refusal(), None);
    assert_eq!(check(&EMPTY, 1).checked.verdict(), None);
    assert_eq!(check(&EMPTY, 1).checked.refusal(), Some(Refusal::Count));
    assert_eq!(judge(&B).refusal(), None);
    assert_eq!(judge(&B[..8]).refusal(), Some(Refusal::Tree));
    let refusal = |text: &str| read(text.as_bytes(), &mut [0; 20]).read.refusal();
    assert_eq!(refusal("skip"), None);
    assert_eq!(refusal(&" ".repeat(16385)), Some(Refusal::Text));
    assert_eq!(refusal("skip;"), Some(Refusal::Faulty));
    assert_eq!(refusal("in v0; in v0; skip"), Some(Refusal::Again));
    assert_eq!(
        refusal(&("skip;".repeat(256) + "skip")),
        Some(Refusal::Rows)
    );
    assert_eq!(refusal(DEEP), Some(Refusal::Depth));
    assert_eq!(refusal("skip; skip; skip; skip"), Some(Refusal::Table));
}
