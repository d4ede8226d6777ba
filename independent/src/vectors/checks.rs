//! Vectors of the level check: branches, loops, rounds, and the lowest failing row.

use super::{levels_case, Vector};
use crate::random::Random;
use crate::recipes::*;

const RANDOM_CHECKS: u64 = 60;

pub fn vectors() -> Vec<Vector> {
    let groups = [
        branches(),
        loops(),
        rounds(),
        nested_loops(),
        three_deep(),
        rows(),
    ];
    let mut vectors = Vec::new();
    for (name, words, levels) in groups.into_iter().flatten() {
        vectors.push(levels_case(name, &words, levels));
    }
    for seed in 1..=RANDOM_CHECKS {
        let mut random = Random::new(1000 + seed);
        let words = random.recipe();
        let name = format!("random-{seed:02}");
        vectors.push(levels_case(&name, &words, random.marks()));
    }
    vectors
}

type Checks = Vec<(&'static str, Vec<u32>, u32)>;

fn told(part: Part) -> Part {
    output(0, part)
}

fn one(variable: u32) -> Part {
    assign(variable, constant(1))
}

fn copy(to: u32, from: u32) -> Part {
    assign(to, variable(from))
}

fn on(test: u32, then: Part, otherwise: Part) -> Part {
    if_else(variable(test), then, otherwise)
}

fn during(test: u32, body: Part) -> Part {
    while_do(variable(test), body)
}

/// "both branches start alike [...] the results are united"
fn branches() -> Checks {
    vec![
        ("assign-marks", lay(&copy(1, 0)), 1),
        ("assign-unmarks", lay(&copy(0, 1)), 1),
        ("settled-if-unites", lay(&on(1, copy(2, 0), one(2))), 1),
        ("settled-if-unmarks-in-one", lay(&on(1, one(0), skip())), 1),
        ("settled-if-unmarks-in-both", lay(&on(1, one(0), one(0))), 1),
        ("provisional-if-marks", lay(&on(0, one(1), one(2))), 1),
        (
            "provisional-if-keeps-its-test",
            lay(&on(0, one(0), one(0))),
            1,
        ),
        (
            "branches-start-alike",
            lay(&on(1, one(0), told(variable(0)))),
            1,
        ),
        (
            "inner-if-in-a-provisional-context",
            lay(&on(0, on(1, one(2), one(3)), skip())),
            1,
        ),
        (
            "context-ends-with-the-if",
            lay(&sequence(on(0, one(1), skip()), one(1))),
            1,
        ),
        (
            "provisional-output-never-fails",
            lay(&on(0, output(1, variable(0)), output(1, constant(5)))),
            1,
        ),
        (
            "fails-and-goes-on",
            lay(&all([told(variable(0)), one(0), copy(2, 1)])),
            7,
        ),
        (
            "v31",
            lay(&sequence(copy(31, 30), told(variable(31)))),
            1 << 30,
        ),
    ]
}

/// "take the least mark set that contains the incoming one and the result of the body
/// started from it"
fn loops() -> Checks {
    vec![
        ("while-keeps-incoming", lay(&during(2, one(0))), 1),
        (
            "while-unmarks-inside",
            lay(&during(2, sequence(one(0), told(variable(0))))),
            1,
        ),
        (
            "output-after-a-while-that-unmarks",
            lay(&sequence(during(2, one(0)), told(variable(0)))),
            1,
        ),
        ("while-provisional-marks", lay(&during(0, one(1))), 1),
        (
            "while-unmarks-its-test",
            lay(&during(0, sequence(one(0), told(constant(5))))),
            1,
        ),
        (
            "output-fails-in-the-second-round",
            lay(&during(2, sequence(told(variable(1)), copy(1, 0)))),
            1,
        ),
        (
            "test-is-marked-in-the-second-round",
            lay(&during(1, sequence(told(constant(5)), copy(1, 0)))),
            1,
        ),
        (
            "context-in-the-second-round-marks",
            lay(&during(1, sequence(one(2), copy(1, 0)))),
            1,
        ),
    ]
}

/// Marks move by one variable in each round, from v0 to `last`.
fn slow(last: u32) -> Part {
    let copies = (1..=last).rev().map(|to| copy(to, to - 1));
    all_left(copies.collect())
}

fn rounds() -> Checks {
    let with_output = |part: Part| lay(&during(9, sequence(part, told(variable(4)))));
    vec![
        ("marks-move-in-4-rounds", with_output(slow(4)), 1),
        ("marks-move-in-5-rounds", lay(&during(9, slow(5))), 1),
        ("marks-move-in-30-rounds", lay(&during(31, slow(30))), 1),
        (
            "marks-move-to-the-test-in-31-rounds",
            lay(&during(31, slow(31))),
            1,
        ),
        ("least-marks-no-more", with_output(slow(3)), 1),
        ("none-marked-in-a-while", with_output(slow(4)), 0),
    ]
}

fn nested_loops() -> Checks {
    let inner = during(6, sequence(told(variable(3)), copy(3, 4)));
    vec![
        (
            // The inner loop's output fails only from the outer loop's final set.
            "inner-while-solved-again",
            lay(&during(5, all([one(3), inner.clone(), copy(4, 0)]))),
            1,
        ),
        (
            "inner-while-settled",
            lay(&during(5, all([one(3), inner, copy(4, 1)]))),
            1,
        ),
        (
            "outer-test-marked-by-the-inner-while",
            lay(&during(
                1,
                sequence(told(constant(5)), during(2, copy(1, 0))),
            )),
            1,
        ),
        (
            "inner-while-in-a-provisional-context",
            lay(&during(0, during(1, sequence(one(2), told(constant(5)))))),
            1,
        ),
    ]
}

/// v1 goes to v2 in the outer loop, v2 to v3 in the middle one, v3 on in the inmost one.
fn three_deep() -> Checks {
    let three = |told: Part, copied: Part| {
        let inmost = during(9, sequence(told, copied));
        let middle = during(8, sequence(inmost, copy(3, 2)));
        lay(&during(7, sequence(middle, copy(2, 1))))
    };
    vec![
        ("three-whiles-deep", three(told(variable(4)), copy(4, 3)), 2),
        (
            "three-whiles-deep-settled",
            three(told(variable(4)), copy(4, 3)),
            1,
        ),
        (
            "three-whiles-deep-inmost-test-marked-last",
            three(told(constant(5)), copy(9, 3)),
            2,
        ),
    ]
}

/// "fail with the lowest failing row"
fn rows() -> Checks {
    let two = || sequence(told(variable(0)), told(variable(0)));
    let branches = || if_else(variable(0), told(constant(1)), told(constant(2)));
    let other = || if_else(variable(0), output(1, constant(1)), told(constant(2)));
    vec![
        ("two-outputs-fail", lay(&two()), 1),
        ("two-outputs-fail-rows-backward", lay_backward(&two()), 1),
        ("both-branches-fail", lay(&branches()), 1),
        (
            "both-branches-fail-rows-backward",
            lay_backward(&branches()),
            1,
        ),
        ("second-branch-fails", lay(&other()), 1),
        (
            "second-branch-fails-rows-backward",
            lay_backward(&other()),
            1,
        ),
        (
            "fails-in-a-while-and-after-it",
            lay_backward(&sequence(
                while_do(variable(0), told(constant(1))),
                told(variable(0)),
            )),
            1,
        ),
    ]
}
