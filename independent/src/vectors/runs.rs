//! Vectors of runs that the named ones do not cover: budget, room, pile, marks, and random.

use super::{Setting, Vector};
use crate::random::Random;
use crate::recipes::*;
use crate::tree::{PROVISIONAL, SETTLED};

const RANDOM_RUNS: u64 = 80;

pub fn vectors() -> Vec<Vector> {
    let groups = [
        budgets(),
        rooms(),
        branches(),
        loops(),
        settled_tests(),
        loops_with_outputs(),
        marks(),
        because(),
        orders(),
        sizes(),
    ];
    let named = groups.into_iter().flatten();
    let mut vectors: Vec<Vector> = named
        .flat_map(|(name, setting)| setting.both(&name))
        .collect();
    vectors.extend(traces());
    vectors.extend(full_room());
    vectors.extend(random_runs());
    vectors
}

type Named = Vec<(String, Setting)>;

fn set(part: Part, inputs: &[u32]) -> Setting {
    Setting::of(&part).inputs(inputs)
}

/// "budget used up gives verdict 2; else a denied output gives 1; else an output without
/// room gives 3"
fn budgets() -> Named {
    let mut runs: Named = Vec::new();
    for budget in 0..=9 {
        runs.push((format!("a-budget-{budget}"), set(a(), &[1]).budget(budget)));
    }
    for budget in 0..=4 {
        let run = set(g(), &[0]).budget(budget);
        runs.push((format!("g-v0-is-0-budget-{budget}"), run));
        let endless = set(while_do(constant(1), skip()), &[]).budget(budget);
        runs.push((format!("endless-budget-{budget}"), endless));
    }
    let named = [
        ("denied-budget-0", set(b(), &[1]).budget(0)),
        ("denied-budget-1", set(b(), &[1]).budget(1)),
        ("denied-no-room-budget-0", set(b(), &[1]).room(0).budget(0)),
        ("no-room-budget-0", set(i(), &[]).room(0).budget(0)),
        ("no-room-budget-1", set(i(), &[]).room(0).budget(1)),
        ("done-at-the-budget", set(i(), &[]).budget(1)),
        ("done-highest-budget", set(e(), &[3]).budget(u32::MAX)),
        (
            "budget-used-in-a-provisional-branch",
            set(m(), &[1]).budget(3),
        ),
        ("budget-used-before-a-close", set(f(), &[0]).budget(1)),
    ];
    runs.extend(named.map(|(name, run)| (name.to_string(), run)));
    runs
}

fn rooms() -> Named {
    let told = |values: [u32; 3]| all(values.map(|value| output(SETTLED, constant(value))));
    let noted = || output(PROVISIONAL, variable(0));
    let branch = || if_else(variable(0), noted(), skip());
    named([
        ("three-outputs-room-2", set(told([1, 2, 3]), &[]).room(2)),
        ("three-outputs-room-3", set(told([1, 2, 3]), &[]).room(3)),
        ("provisional-output-no-room", set(noted(), &[7]).room(0)),
        ("provisional-output-room-1", set(noted(), &[7]).room(1)),
        ("provisional-output-in-a-branch", set(branch(), &[7])),
        (
            "provisional-output-in-a-branch-no-room",
            set(branch(), &[7]).room(0),
        ),
        (
            "denied-after-two-records",
            set(all([i(), noted(), output(SETTLED, variable(0)), i()]), &[7]),
        ),
        (
            "denied-when-the-room-is-full",
            set(all([i(), noted(), b()]), &[7]).room(2),
        ),
        (
            "both-channels",
            set(all([noted(), i(), noted(), i()]), &[7]),
        ),
    ])
}

fn named<const N: usize>(runs: [(&str, Setting); N]) -> Named {
    runs.map(|(name, run)| (name.to_string(), run)).into()
}

/// Ifs under provisional and settled tests, taken both ways.
fn branches() -> Named {
    let mut runs: Named = Vec::new();
    for v0 in 0..2 {
        for v1 in 0..2 {
            let inner = if_else(variable(1), one(2), one(3));
            let nested = if_else(variable(0), inner, one(4));
            for levels in 0..4 {
                let name = format!("nested-ifs-v0-is-{v0}-v1-is-{v1}-levels-{levels}");
                runs.push((name, set(nested.clone(), &[v0, v1]).levels(levels)));
            }
        }
        let unmark = if_else(variable(0), assign(1, constant(0)), assign(0, constant(0)));
        let name = format!("constant-in-a-provisional-branch-v0-is-{v0}");
        runs.push((name, set(unmark.clone(), &[v0, 5])));
        let name = format!("constant-in-a-settled-branch-v0-is-{v0}");
        runs.push((name, set(unmark, &[v0, 5]).levels(2)));
        let deep = nested_then(8, one(9));
        let name = format!("eight-ifs-v0-is-{v0}");
        runs.push((name, set(deep.clone(), &[v0])));
        let name = format!("eight-ifs-settled-v0-is-{v0}");
        runs.push((name, set(deep, &[v0]).levels(4)));
        let after = sequence(if_else(variable(0), skip(), skip()), i());
        let name = format!("settled-output-after-a-provisional-if-v0-is-{v0}");
        runs.push((name, set(after, &[v0])));
    }
    for value in [1, 2, 2147483648, u32::MAX] {
        let told = |value: u32| output(SETTLED, constant(value));
        let test = if_else(constant(value), told(1), told(0));
        runs.push((format!("test-of-{value}-holds"), set(test, &[])));
    }
    runs
}

/// While v0 is not 0: the body, and one less.
fn counted(body: Part) -> Part {
    while_do(variable(0), sequence(body, less_one(0)))
}

fn one(variable: u32) -> Part {
    assign(variable, constant(1))
}

fn loops() -> Named {
    let inner = || sequence(one(2), while_do(variable(1), one(3)));
    let settled_inside = sequence(
        assign(5, constant(2)),
        while_do(variable(5), sequence(one(6), less_one(5))),
    );
    let unmarks_test = while_do(variable(0), assign(0, constant(0)));
    let marks_test = while_do(variable(1), sequence(assign(1, variable(0)), one(2)));
    let endless = while_do(constant(1), less_one(0));
    named([
        ("while-provisional-twice", set(counted(one(2)), &[2])),
        ("while-settled-twice", set(counted(one(2)), &[2]).levels(4)),
        ("while-with-a-while", set(counted(inner()), &[2])),
        (
            "while-with-a-while-settled",
            set(counted(inner()), &[2]).levels(2),
        ),
        ("while-unmarks-its-test", set(unmarks_test, &[3])),
        ("while-marks-its-test", set(marks_test.clone(), &[0, 1])),
        ("while-marks-its-test-endless", set(marks_test, &[1, 1])),
        (
            "while-counts-in-a-provisional-if",
            set(if_else(variable(0), settled_inside, one(7)), &[1]),
        ),
        ("endless-budget-100000", set(endless, &[7]).budget(100_000)),
        ("counts-to-30000", set(e(), &[30_000]).budget(u32::MAX)),
    ])
}

/// A settled test in a provisional context: without its push, the close would end the
/// context of the if, and the output would be a record.
fn settled_tests() -> Named {
    let before = |inner: Part| if_else(variable(0), sequence(inner, i()), one(2));
    let looped = before(while_do(variable(1), assign(1, constant(0))));
    let branched = before(if_else(variable(1), one(3), one(4)));
    let mut runs: Named = Vec::new();
    for v1 in 0..2 {
        let name = format!("settled-while-in-a-provisional-if-v1-is-{v1}");
        runs.push((name, set(looped.clone(), &[1, v1])));
        let name = format!("settled-if-in-a-provisional-if-v1-is-{v1}");
        runs.push((name, set(branched.clone(), &[1, v1])));
    }
    runs
}

fn loops_with_outputs() -> Named {
    let outputs = |channel: u32| counted(output(channel, variable(0)));
    named([
        ("while-outputs-provisional", set(outputs(1), &[3])),
        ("while-outputs-settled", set(outputs(0), &[3]).levels(2)),
        ("while-outputs-denied", set(outputs(0), &[3])),
        (
            "while-outputs-until-the-room-is-full",
            set(outputs(1), &[30]),
        ),
        (
            "settled-output-after-a-provisional-while",
            set(sequence(e(), i()), &[3]),
        ),
        (
            "output-of-what-a-provisional-while-may-assign",
            set(sequence(counted(one(2)), output(0, variable(2))), &[0]),
        ),
    ])
}

fn marks() -> Named {
    let copy = |to: u32, from: u32| assign(to, variable(from));
    let high = 1 << 31;
    named([
        ("assign-marks", set(copy(1, 0), &[7])),
        ("assign-unmarks", set(copy(0, 1), &[7, 8])),
        ("assign-to-itself", set(copy(0, 0), &[7])),
        ("assign-v31", set(copy(31, 0), &[7])),
        ("assign-from-v31", set(copy(0, 31), &[7]).levels(high)),
        (
            "assign-all-marked",
            set(assign(31, constant(1)), &[]).levels(u32::MAX),
        ),
        ("skip-all-marked", set(skip(), &[]).levels(u32::MAX)),
        (
            "v31-not-assigned-in-a-branch",
            set(if_else(variable(0), skip(), copy(31, 1)), &[1]),
        ),
        (
            "swap-by-sums",
            set(
                all([
                    assign(1, binary(SUM, variable(1), variable(0))),
                    assign(0, binary(DIFFERENCE, variable(1), variable(0))),
                    assign(1, binary(DIFFERENCE, variable(1), variable(0))),
                ]),
                &[4_000_000_000, 3_000_000_000],
            ),
        ),
    ])
}

/// The marked variables that a denied output reads, by the marks where it stops the run: not
/// the other marked ones, not what the tests around it read, not what stands in the pile.
fn because() -> Named {
    let told = |variables: &[u32]| output(SETTLED, sum_of(variables));
    let every: Vec<u32> = (0..32).collect();
    let within = |taken: Part, otherwise: Part| if_else(variable(0), taken, otherwise);
    let read_before = all([
        assign(2, variable(1)),
        output(PROVISIONAL, variable(3)),
        if_else(variable(4), skip(), skip()),
        told(&[0]),
    ]);
    let marked_inside = sequence(assign(1, constant(5)), told(&[1]));
    named([
        ("because-two-variables", set(told(&[5, 0]), &[]).levels(33)),
        (
            "because-marked-among-settled",
            set(told(&[0, 1, 2, 3]), &[]).levels(0b11010),
        ),
        ("because-v31", set(told(&[31]), &[]).levels(1 << 31)),
        (
            "because-all-variables",
            set(told(&every), &[]).levels(u32::MAX),
        ),
        (
            "because-every-second-of-all-variables",
            set(told(&every), &[]).levels(0x5555_5555),
        ),
        (
            "because-one-of-all-marked",
            set(told(&[17]), &[]).levels(u32::MAX),
        ),
        (
            "because-others-read-before",
            set(read_before, &[]).levels(0b11011),
        ),
        (
            "because-the-first-of-two-outputs",
            set(sequence(told(&[0]), told(&[1])), &[]).levels(3),
        ),
        (
            "because-marked-by-an-assignment",
            set(sequence(assign(1, variable(0)), told(&[1])), &[]),
        ),
        (
            "because-unmarked-by-then",
            set(sequence(assign(0, constant(0)), told(&[0, 1])), &[]).levels(3),
        ),
        (
            "because-only-the-context",
            set(within(told(&[1, 2]), skip()), &[1]),
        ),
        (
            "because-only-the-context-v2-in-the-pile",
            set(within(told(&[2]), one(2)), &[1]),
        ),
        (
            "because-expression-and-context",
            set(within(told(&[1, 2]), one(3)), &[1]).levels(3),
        ),
        (
            "because-marked-in-a-provisional-branch",
            set(within(marked_inside, skip()), &[1]),
        ),
        (
            "because-no-room-for-what-is-settled",
            set(told(&[1]), &[]).room(0),
        ),
        (
            "because-no-room-before-a-denied-output",
            set(sequence(output(PROVISIONAL, constant(5)), told(&[0])), &[]).room(0),
        ),
    ])
}

/// The same recipes with their rows in another order: only places change.
fn orders() -> Named {
    let run = |part: Part, inputs: &[u32]| Setting::of_words(lay_backward(&part)).inputs(inputs);
    let lean_left = all_left(vec![i(), skip(), output(1, variable(0)), b()]);
    named([
        ("a-rows-backward", run(a(), &[1])),
        ("h-rows-backward", run(h(), &[1])),
        ("m-rows-backward", run(m(), &[1])),
        ("b-rows-backward", run(b(), &[1])),
        (
            "difference-rows-backward",
            run(
                output(1, binary(DIFFERENCE, variable(0), constant(1))),
                &[7],
            ),
        ),
        ("sequences-leaning-left", set(lean_left, &[7])),
    ])
}

/// Recipes at the limits, run: values and levels come from the farthest leaf.
fn sizes() -> Named {
    let tallest = |part: Part, levels: u32| set(output(SETTLED, part), &[7]).levels(levels);
    let every: Vec<u32> = (0..32).map(|variable| u32::MAX - variable).collect();
    named([
        ("height-16-left-marked", tallest(tall_left(16), 1)),
        ("height-16-left-settled", tallest(tall_left(16), 2)),
        ("height-16-right-marked", tallest(tall_right(16), 1)),
        ("height-16-right-settled", tallest(tall_right(16), 2)),
        ("32-inputs", set(skip(), &every)),
        (
            "three-loops-deep",
            set(nested_while(3, sequence(less_one(0), i())), &[2]).levels(0),
        ),
    ])
}

/// "Words after the last record keep their old contents."
fn traces() -> Vec<Vector> {
    let two = sequence(output(PROVISIONAL, variable(0)), i());
    [0, 1, 2, 3, 4, 5, 7]
        .iter()
        .map(|lent| {
            let run = set(two.clone(), &[7]).lent(*lent);
            Vector::case(&format!("run-two-outputs-{lent}-words"), run.case_text())
        })
        .collect()
}

/// Every record that a job can have, and one more; also with the longest numbers in every line of the report that can have them,
/// and in that of a run that is denied after them.
fn full_room() -> Vec<Vector> {
    let filled = |body: Part, inputs: &[u32]| {
        let endless = set(while_do(constant(1), body), inputs).budget(u32::MAX);
        endless.room(8192)
    };
    let noted = || output(PROVISIONAL, variable(0));
    let long = filled(noted(), &[u32::MAX; 32]).levels(u32::MAX);
    vec![
        Vector::job("room-8192-is-filled", filled(i(), &[]).job_text()),
        Vector::job("room-8192-is-filled-with-long-records", long.job_text()),
        Vector::job("room-8192-is-filled-then-denied", denied_after(noted())),
    ]
}

/// The statement 8192 times, by a counter that ends at the highest number, as the other variables
/// have it all along; then an output of all variables, which are all marked.
fn denied_after(statement: Part) -> String {
    let counter = 1;
    let step = assign(counter, binary(SUM, variable(counter), constant(1)));
    let test = binary(DIFFERENCE, variable(counter), constant(u32::MAX));
    let every: Vec<u32> = (0..32).collect();
    let denied = output(SETTLED, sum_of(&every));
    let part = sequence(while_do(test, sequence(statement, step)), denied);
    let mut inputs = [u32::MAX; 32];
    inputs[counter as usize] -= 8192;
    let setting = set(part, &inputs).levels(u32::MAX).budget(u32::MAX);
    setting.room(8192).job_text()
}

/// Random recipes, every second one as a job.
fn random_runs() -> Vec<Vector> {
    let mut vectors = Vec::new();
    for seed in 1..=RANDOM_RUNS {
        let mut random = Random::new(seed);
        let mut setting = Setting::of_words(random.recipe());
        setting.inputs = random.memory()[..8].to_vec();
        setting.levels = random.marks();
        setting.budget = random.one_of(&[20, 100, 1000, 1000]);
        setting = setting.room(random.one_of(&[1, 4, 16, 16]));
        let name = format!("random-{seed:02}");
        vectors.push(if seed % 2 == 0 {
            Vector::job(&name, setting.job_text())
        } else {
            Vector::case(&format!("run-{name}"), setting.case_text())
        });
    }
    vectors
}
