//! Runs whose values follow from the request's sentences one by one.

use super::*;
use independent::recipes::*;
use independent::run::{run_told, unwatched};
use independent::tree::{Expression, Memory};

/// "budget used up gives verdict 2; else a denied output gives 1; else an output without
/// room gives 3"
#[test]
fn budget_then_denial_then_room() {
    let ends = |part: &Part, budget: u32, room: usize| {
        let ran = run_part(part, GIVEN.budget(budget).room(room));
        (ran.verdict(), ran.answer.steps)
    };
    assert_eq!(ends(&b(), 0, 8), (2, 0));
    assert_eq!(ends(&b(), 0, 0), (2, 0));
    assert_eq!(ends(&b(), 1, 0), (1, 0));
    assert_eq!(ends(&b(), 1, 8), (1, 0));
    assert_eq!(ends(&i(), 0, 0), (2, 0));
    assert_eq!(ends(&i(), 1, 0), (3, 0));
    assert_eq!(ends(&i(), 1, 1), (0, 1));
    assert_eq!(ends(&a(), 8, 8), (2, 8));
    assert_eq!(ends(&a(), 9, 8), (1, 8));
}

/// "A finished run is verdict 0, also when its last step used the budget."
#[test]
fn done_at_the_budget() {
    for (part, steps) in [(c(), 5), (h(), 4), (e(), 2), (g(), 3)] {
        for budget in 0..=steps + 1 {
            let ran = run_part(&part, GIVEN.budget(budget));
            let verdict = if budget < steps { 2 } else { 0 };
            assert_eq!((ran.verdict(), ran.place()), (verdict, 0));
            assert_eq!(ran.answer.steps, budget.min(steps));
        }
    }
}

/// An output on either channel needs room; the place is its row.
#[test]
fn room_on_both_channels() {
    let part = all([i(), output(1, variable(0)), i()]);
    let rows = output_rows(&lay(&part));
    for (room, row) in rows.into_iter().enumerate() {
        let ran = run_part(&part, GIVEN.room(room));
        assert_eq!((ran.verdict(), ran.place()), (3, row));
        assert_eq!((ran.answer.steps, ran.records.len()), (room as u32, room));
    }
    let ran = run_part(&part, inputs(&[7]).room(3));
    assert_eq!(ran.records, [(0, 5), (1, 7), (0, 5)]);
}

/// "Output on channel 1: a record", also in a provisional context.
#[test]
fn provisional_output_is_never_denied() {
    let part = if_else(variable(0), output(1, constant(5)), skip());
    let ran = run_part(&part, inputs(&[1]));
    assert_eq!((ran.verdict(), ran.answer.steps), (0, 3));
    assert_eq!(ran.records, [(1, 5)]);
}

/// "An expression is provisional when some variable read in it is marked", on either side.
#[test]
fn either_side_of_an_expression() {
    for (left, right, verdict) in [(0, 1, 1), (1, 0, 1), (0, 0, 1), (1, 2, 0)] {
        let sum = binary(SUM, variable(left), variable(right));
        assert_eq!(run_part(&output(0, sum), GIVEN).verdict(), verdict);
    }
}

/// "An expression's level is now the set of marked variables that it reads": no settled one,
/// and none that it does not read.
#[test]
fn because_of_what_the_output_reads() {
    let because = |variables: &[u32], marks: u32| {
        let ran = run_part(&output(0, sum_of(variables)), GIVEN.marks(marks));
        (ran.verdict(), ran.because())
    };
    assert_eq!(because(&[3], 0b1000), (1, 0b1000));
    assert_eq!(because(&[3, 3], u32::MAX), (1, 0b1000));
    assert_eq!(because(&[3, 1], u32::MAX), (1, 0b1010));
    assert_eq!(because(&[0, 1, 2, 3], 0b11010), (1, 0b1010));
    assert_eq!(because(&[0, 1, 2, 3], 0b10000), (0, 0));
    let every: Vec<u32> = (0..32).collect();
    assert_eq!(because(&every, u32::MAX), (1, u32::MAX));
    for variable in every.iter() {
        assert_eq!(because(&every, 1 << variable), (1, 1 << variable));
        assert_eq!(because(&[*variable], u32::MAX), (1, 1 << variable));
    }
}

/// By the marks where the run stops: what assignments and closes have marked by then, and not
/// what they have unmarked.
#[test]
fn because_by_the_marks_at_the_stop() {
    let because = |before: Part, variables: &[u32], marks: u32| {
        let part = sequence(before, output(0, sum_of(variables)));
        let ran = run_part(&part, inputs(&[1]).marks(marks));
        (ran.verdict(), ran.because())
    };
    let one = |variable: u32| assign(variable, constant(1));
    assert_eq!(because(assign(1, variable(0)), &[1], 1), (1, 2));
    assert_eq!(because(one(0), &[0, 1], 3), (1, 2));
    assert_eq!(because(one(0), &[0], 3), (0, 0));
    let not_taken = if_else(variable(0), skip(), one(1));
    assert_eq!(because(not_taken, &[1, 2], 1), (1, 2));
    assert_eq!(because(while_do(variable(1), one(2)), &[2, 3], 2), (1, 4));
    // What ran before, and what other outputs read, is not what this one reads.
    assert_eq!(because(output(1, variable(1)), &[0], 3), (1, 1));
    assert_eq!(because(assign(2, variable(1)), &[0], 3), (1, 1));
}

/// "0 when only the context was provisional"; where both are, the expression's level alone.
#[test]
fn because_in_a_provisional_context() {
    let because = |taken: Part, otherwise: Part, marks: u32| {
        let part = if_else(variable(0), taken, otherwise);
        let ran = run_part(&part, inputs(&[1]).marks(marks));
        (ran.verdict(), ran.because())
    };
    let told = |variables: &[u32]| output(0, sum_of(variables));
    let one = |variable: u32| assign(variable, constant(1));
    assert_eq!(because(i(), one(1), 1), (1, 0));
    assert_eq!(because(told(&[1, 2]), skip(), 1), (1, 0));
    // What is still in the pile is not marked yet.
    assert_eq!(because(told(&[1, 2]), one(1), 1), (1, 0));
    assert_eq!(because(told(&[1, 2]), one(3), 5), (1, 4));
    assert_eq!(because(told(&[0, 1]), one(3), 5), (1, 1));
    assert_eq!(because(sequence(one(1), told(&[1])), skip(), 1), (1, 2));
}

/// "and 0 otherwise": budget and room come to an end where an output reads marked variables.
#[test]
fn because_of_no_other_verdict() {
    let ends = |part: &Part, budget: u32, room: usize| {
        let given = GIVEN.marks(u32::MAX).budget(budget).room(room);
        let ran = run_part(part, given);
        (ran.verdict(), ran.because())
    };
    let noted = output(1, variable(0));
    assert_eq!(ends(&noted, 1, 1), (0, 0));
    assert_eq!(ends(&noted, 1, 0), (3, 0));
    assert_eq!(ends(&noted, 0, 1), (2, 0));
    assert_eq!(ends(&b(), 0, 1), (2, 0));
    assert_eq!(ends(&b(), 1, 0), (1, 1));
    let settled = run_part(&output(0, variable(1)), GIVEN.room(0));
    assert_eq!((settled.verdict(), settled.because()), (3, 0));
    let before = run_part(&sequence(noted, b()), GIVEN.room(0));
    assert_eq!((before.verdict(), before.because()), (3, 0));
}

/// "Unmarking inside a provisional branch because the right side is a constant."
#[test]
fn no_unmarking_in_a_provisional_branch() {
    let part = if_else(variable(0), assign(0, constant(0)), skip());
    assert_eq!(run_part(&part, inputs(&[1])).marks, 1);
    let part = if_else(variable(0), assign(1, constant(0)), skip());
    assert_eq!(run_part(&part, inputs(&[1])).marks, 3);
    let part = while_do(variable(0), assign(0, constant(0)));
    assert_eq!(run_part(&part, inputs(&[1])).marks, 1);
}

/// "It is [...] unmarked otherwise."
#[test]
fn unmarking_in_a_settled_context() {
    assert_eq!(run_part(&assign(0, constant(0)), GIVEN).marks, 0);
    let settled = if_else(variable(1), assign(0, constant(0)), skip());
    assert_eq!(run_part(&settled, inputs(&[1, 1])).marks, 0);
    assert_eq!(run_part(&settled, inputs(&[1, 0])).marks, 1);
}

/// Under a provisional test, what either branch may assign is marked, whichever is taken.
#[test]
fn branch_not_taken() {
    let one = |variable: u32| assign(variable, constant(1));
    let inner = if_else(variable(1), one(2), one(3));
    let part = if_else(variable(0), inner, one(4));
    // v0 marked alone: what ran and what did not, so all of v2, v3 and v4.
    for (v0, v1) in [(0, 0), (0, 1), (1, 0), (1, 1)] {
        assert_eq!(run_part(&part, inputs(&[v0, v1])).marks, 0b11101);
    }
    // v1 marked alone: v4 is settled in any case.
    let given = |v0: u32, v1: u32| inputs(&[v0, v1]).marks(2);
    assert_eq!(run_part(&part, given(1, 0)).marks, 0b01110);
    assert_eq!(run_part(&part, given(1, 1)).marks, 0b01110);
    assert_eq!(run_part(&part, given(0, 1)).marks, 0b00010);
}

/// "marks do not include what is still in the pile"
#[test]
fn pile_is_not_in_the_marks() {
    let part = if_else(variable(0), skip(), assign(1, constant(1)));
    let marks = |budget: u32| run_part(&part, inputs(&[1]).budget(budget)).marks;
    assert_eq!((marks(1), marks(2), marks(3)), (1, 1, 3));
}

/// "while, test fails: [...] push the set that the body may assign", after some turns too.
#[test]
fn while_that_fails_later() {
    let body = sequence(
        if_else(variable(2), assign(1, constant(1)), skip()),
        less_one(0),
    );
    let ran = run_part(&while_do(variable(0), body), inputs(&[2]));
    // A turn: test, if, skip, its close, assign, close.
    assert_eq!((ran.verdict(), ran.answer.steps, ran.marks), (0, 14, 3));
}

/// After the turn's close the context is settled again, and the same while is tested.
#[test]
fn context_ends_with_the_close() {
    let part = sequence(e(), i());
    let ran = run_part(&part, inputs(&[2]));
    assert_eq!((ran.verdict(), ran.answer.steps), (0, 9));
    assert_eq!(ran.records, [(0, 5)]);
}

/// A settled test in a provisional context is pushed too: else its close would pop the
/// set of the if around it, and the output would be a record.
#[test]
fn settled_test_in_a_provisional_context() {
    let before = |inner: Part| {
        let taken = sequence(inner, i());
        if_else(variable(0), taken, assign(2, constant(1)))
    };
    let looped = before(while_do(variable(1), assign(1, constant(0))));
    // The if, the test, its close; with a turn also the assignment, a close and a test.
    for (v1, steps) in [(0, 3), (1, 6)] {
        let ran = run_part(&looped, inputs(&[1, v1]));
        assert_eq!((ran.verdict(), ran.answer.steps, ran.marks), (1, steps, 3));
    }
    let one = |variable: u32| assign(variable, constant(1));
    let branched = before(if_else(variable(1), one(3), one(4)));
    for v1 in [0, 1] {
        let ran = run_part(&branched, inputs(&[1, v1]));
        assert_eq!(
            (ran.verdict(), ran.answer.steps, ran.marks),
            (1, 4, 0b11001)
        );
    }
}

/// A settled test in a settled context pushes nothing.
#[test]
fn settled_loop() {
    let part = while_do(variable(1), sequence(i(), less_one(1)));
    let ran = run_part(&part, inputs(&[7, 2]));
    assert_eq!((ran.verdict(), ran.answer.steps, ran.marks), (0, 10, 1));
    assert_eq!(ran.records, [(0, 5), (0, 5)]);
}

/// An endless loop takes exactly its budget.
#[test]
fn endless() {
    for part in [while_do(constant(1), skip()), while_do(variable(0), skip())] {
        let given = inputs(&[1]).budget(1_000_000);
        let ran = run_part(&part, given);
        assert_eq!((ran.verdict(), ran.answer.steps), (2, 1_000_000));
    }
}

/// "Room is half the word count, rounded down. Words after the last record keep their old
/// contents."
#[test]
fn odd_trace() {
    let words = lay(&all([i(), i(), i()]));
    let mut trace = [9; 5];
    let (answer, _) = run(&words, [0; 32], 0, 100, &mut trace);
    assert_eq!((answer.records, answer.steps), (2, 2));
    assert_eq!(trace, [0, 5, 0, 5, 9]);
}

/// "The unwatched language has the same steps without marks, pile or denial."
#[test]
fn without_the_monitor() {
    let told = |part: &Part, given: Given| {
        let mut trace = [9; 2];
        let answer = unwatched(&lay(part), given.memory, given.budget, &mut trace);
        let verdict = match answer.end {
            End::Ended {
                verdict,
                because: 0,
                ..
            } => verdict as u32,
            other => panic!("no end of an unwatched run: {other:?}"),
        };
        (verdict, answer.steps, trace)
    };
    // A tells v0: it is what the monitor is there to stop.
    assert_eq!(told(&a(), inputs(&[0])), (0, 9, [0, 0]));
    assert_eq!(told(&a(), inputs(&[1])), (0, 9, [0, 1]));
    assert_eq!(told(&b(), GIVEN), (0, 1, [0, 0]));
    assert_eq!(told(&e(), inputs(&[3])), (0, 11, [9, 9]));
    assert_eq!(told(&f(), inputs(&[0])), (0, 2, [9, 9]));
    assert_eq!(told(&n(), inputs(&[2])), (3, 5, [0, 5]));
    let budget = |budget: u32| inputs(&[3]).budget(budget);
    assert_eq!(told(&e(), budget(10)), (2, 10, [9, 9]));
    assert_eq!(told(&e(), budget(11)), (0, 11, [9, 9]));
}

/// Rows in another order are the same recipe.
#[test]
fn order_of_rows() {
    for part in [a(), c(), e(), f(), g(), h(), l(), m(), o()] {
        let (one, other) = (lay(&part), lay_backward(&part));
        for v0 in [0, 1] {
            let (one, other) = (
                run_words(&one, inputs(&[v0])),
                run_words(&other, inputs(&[v0])),
            );
            assert_eq!(one.verdict(), other.verdict());
            assert_eq!(one.because(), other.because());
            assert_eq!(one.answer.steps, other.answer.steps);
            assert_eq!((one.marks, one.records), (other.marks, other.records));
        }
    }
}

/// A run tells each expression whose value it takes, and no other; of these the dividends by 0.
#[test]
fn quotients_by_zero_are_told() {
    let quotient = |left: Part, right: Part| binary(3, left, right);
    let twice = quotient(quotient(constant(7), variable(1)), variable(1));
    let part = sequence(
        assign(2, quotient(variable(0), variable(1))),
        if_else(variable(0), skip(), output(1, twice)),
    );
    let words = lay(&part);
    let dividends = |values: &[u32]| {
        let memory = inputs(values).memory;
        let mut dividends = Vec::new();
        let mut told = |e: &Expression, m: &Memory| dividends.extend(e.divided_by_zero(m));
        run_told(&words, memory, 0, 100, &mut [0; 2], &mut told);
        dividends
    };
    assert_eq!(dividends(&[5, 0]), [5]);
    assert_eq!(dividends(&[0, 0]), [0, 7, 4294967295]);
    assert_eq!(dividends(&[0, 2]), []);
}
