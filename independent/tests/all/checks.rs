//! The level check: values that follow from the request, and the two methods together.

use super::*;
use independent::levels::{levels, levels_by, Method, Outcome};
use independent::recipes::*;

/// Each method's answer, which must be one: whether it passes, and the marks.
fn checked(part: &Part, marks: u32) -> (bool, u32) {
    let words = lay(part);
    let answer = levels(&words, marks);
    for method in [Method::Search, Method::Rounds] {
        assert_eq!(levels_by(method, &words, marks), answer);
    }
    (answer.0 == Outcome::Pass, answer.1)
}

fn one(variable: u32) -> Part {
    assign(variable, constant(1))
}

fn copy(to: u32, from: u32) -> Part {
    assign(to, variable(from))
}

fn told(value: u32) -> Part {
    output(0, variable(value))
}

#[test]
fn statements() {
    assert_eq!(checked(&skip(), 5), (true, 5));
    assert_eq!(checked(&copy(1, 0), 1), (true, 3));
    assert_eq!(checked(&copy(0, 1), 1), (true, 0));
    assert_eq!(checked(&told(0), 1), (false, 1));
    assert_eq!(checked(&told(0), 2), (true, 2));
    assert_eq!(checked(&output(1, variable(0)), 1), (true, 1));
    assert_eq!(checked(&b(), 1), (false, 1));
    assert_eq!(checked(&sequence(copy(1, 0), told(1)), 1), (false, 3));
}

#[test]
fn branches() {
    let on = |test: u32, then: Part, otherwise: Part| if_else(variable(test), then, otherwise);
    assert_eq!(checked(&on(1, copy(2, 0), one(2)), 1), (true, 0b101));
    assert_eq!(checked(&on(1, one(0), skip()), 1), (true, 1));
    assert_eq!(checked(&on(1, one(0), one(0)), 1), (true, 0));
    assert_eq!(checked(&on(0, one(1), one(2)), 1), (true, 0b111));
    assert_eq!(checked(&on(0, one(0), one(0)), 1), (true, 1));
    assert_eq!(
        checked(&on(0, on(1, one(2), skip()), skip()), 1),
        (true, 0b101)
    );
    assert_eq!(
        checked(&sequence(on(0, one(1), skip()), one(1)), 1),
        (true, 1)
    );
    assert_eq!(checked(&g(), 1), (false, 1));
    assert_eq!(checked(&a(), 1), (false, 0b111));
    assert_eq!(checked(&c(), 1), (true, 0));
}

#[test]
fn loops() {
    let on = |test: u32, body: Part| while_do(variable(test), body);
    // The incoming set stays, whatever the body unmarks.
    assert_eq!(checked(&on(2, one(0)), 1), (true, 1));
    assert_eq!(checked(&on(2, sequence(one(0), told(0))), 1), (true, 1));
    assert_eq!(checked(&on(2, sequence(told(0), one(0))), 1), (false, 1));
    assert_eq!(checked(&f(), 1), (true, 3));
    // The second round marks v1, so that an output before it fails.
    assert_eq!(checked(&p(), 1), (false, 3));
    assert_eq!(checked(&p(), 0), (true, 0));
    // The second round marks the test, so that its context is provisional.
    assert_eq!(checked(&on(1, sequence(one(2), copy(1, 0))), 1), (true, 7));
    assert_eq!(checked(&on(1, sequence(i(), copy(1, 0))), 1), (false, 3));
    // One variable more in each round.
    let slow = all([copy(4, 3), copy(3, 2), copy(2, 1), copy(1, 0)]);
    assert_eq!(checked(&on(9, slow.clone()), 1), (true, 0b11111));
    assert_eq!(checked(&on(9, slow.clone()), 4), (true, 0b11100));
    assert_eq!(
        checked(&on(9, sequence(told(4), slow)), 1),
        (false, 0b11111)
    );
}

/// Inner loops are solved again from the outer loop's final set.
#[test]
fn nested_loops() {
    let on = |test: u32, body: Part| while_do(variable(test), body);
    let inner = |from: u32| {
        let inner = on(6, sequence(told(3), copy(3, 4)));
        on(5, all([one(3), inner, copy(4, from)]))
    };
    assert_eq!(checked(&inner(0), 1), (false, 0b11001));
    assert_eq!(checked(&inner(1), 1), (true, 1));
    let outer = on(1, sequence(i(), on(2, copy(1, 0))));
    assert_eq!(checked(&outer, 1), (false, 3));
}

/// Thirty-one rounds, over more variables than a search would try.
#[test]
fn many_rounds() {
    let copies: Vec<Part> = (1..32).rev().map(|to| copy(to, to - 1)).collect();
    let words = lay(&while_do(variable(31), all_left(copies)));
    assert_eq!(levels(&words, 1), (Outcome::Pass, u32::MAX));
    assert_eq!(levels(&words, 1 << 16), (Outcome::Pass, 0xFFFF_FFFE));
    assert_eq!(levels(&words, 0), (Outcome::Pass, 0));
}

/// "fail with the lowest failing row": by number, not by the order of the walk.
#[test]
fn lowest_failing_row() {
    let parts = [
        sequence(told(0), told(0)),
        if_else(variable(0), output(0, constant(1)), output(0, constant(2))),
        sequence(while_do(variable(0), i()), told(0)),
    ];
    for part in parts {
        for words in [lay(&part), lay_backward(&part)] {
            let row = output_rows(&words)[0];
            assert_eq!(levels(&words, 1).0, Outcome::Fail { row });
        }
    }
    let second = if_else(variable(0), output(1, constant(1)), output(0, constant(2)));
    let words = lay(&second);
    let row = output_rows(&words)[1];
    assert_eq!(levels(&words, 1), (Outcome::Fail { row }, 1));
}
