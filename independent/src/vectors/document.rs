//! Vectors of the request's whole case, of A to I and K, and of L to P.

use super::{judge_case, levels_case, Setting, Vector, WHOLE_CASE};
use crate::recipes::*;
use crate::tree::{PROVISIONAL, SETTLED};

pub fn vectors() -> Vec<Vector> {
    let whole_case = WHOLE_CASE.join("\n") + "\n";
    let mut vectors = vec![Vector::job("whole-case", whole_case)];
    vectors.extend(named_runs());
    vectors.extend(named_checks());
    vectors.extend(trace_words());
    vectors.extend(limits());
    vectors
}

fn named_runs() -> Vec<Vector> {
    let set = |part: Part, v0: u32| Setting::of(&part).inputs(&[v0]);
    let runs = [
        ("a-v0-is-0", set(a(), 0)),
        ("a-v0-is-1", set(a(), 1)),
        ("b", set(b(), 0)),
        ("c", set(c(), 0)),
        ("c-v0-is-1", set(c(), 1)),
        ("d-budget-0", set(d(), 0).budget(0)),
        ("d-budget-1", set(d(), 0).budget(1)),
        ("e", set(e(), 3)),
        ("e-budget-10", set(e(), 3).budget(10)),
        ("e-budget-11", set(e(), 3).budget(11)),
        ("f", set(f(), 0)),
        ("f-v1-is-9", Setting::of(&f()).inputs(&[0, 9])),
        ("g-v0-is-0", set(g(), 0)),
        ("g-v0-is-1", set(g(), 1)),
        ("h", set(h(), 0)),
        ("i-no-room", set(i(), 0).room(0)),
        ("i-room-1", set(i(), 0).room(1)),
        ("i-b-no-room", set(b(), 0).room(0)),
        ("l", set(l(), 1)),
        ("m", set(m(), 1)),
        ("n", set(n(), 1)),
        ("o", set(o(), 1)),
        ("p", set(p(), 1)),
    ];
    let both = runs.iter().flat_map(|(name, run)| run.both(name));
    let whole = Setting::of(&sequence(
        output(SETTLED, variable(0)),
        output(PROVISIONAL, variable(1)),
    ));
    let whole = whole.inputs(&[7, 9]).levels(2).budget(10).room(2);
    let whole = Vector::case("run-whole-case", whole.case_text());
    both.chain([whole]).collect()
}

/// The level check of every named recipe: with v0 marked, with none and with all.
fn named_checks() -> Vec<Vector> {
    let mut vectors = Vec::new();
    for (name, recipe) in lettered() {
        let words = lay(&recipe);
        vectors.push(levels_case(name, &words, 1));
        vectors.push(levels_case(&format!("{name}-none-marked"), &words, 0));
        vectors.push(levels_case(&format!("{name}-all-marked"), &words, u32::MAX));
    }
    vectors
}

/// I and K: what a room in whole records cannot say.
fn trace_words() -> Vec<Vector> {
    let lent = |name: &str, part: Part, lent: usize| {
        Vector::case(name, Setting::of(&part).lent(lent).case_text())
    };
    vec![
        lent("run-i-1-trace-word", i(), 1),
        lent("run-i-2-trace-words", i(), 2),
        lent("run-i-3-trace-words", i(), 3),
        lent("run-i-b-0-trace-words", b(), 0),
        lent("run-k-16384-trace-words", i(), 16384),
        lent("run-k-16385-trace-words", i(), 16385),
    ]
}

/// K, as far as tables go: each limit met, and just exceeded.
fn limits() -> Vec<Vector> {
    let told = |tall: Part| output(SETTLED, tall);
    let accepted_or_not = [
        ("512-rows", of_rows(512)),
        ("height-16-left", told(tall_left(16))),
        ("height-17-left", told(tall_left(17))),
        ("height-16-right", told(tall_right(16))),
        ("height-17-right", told(tall_right(17))),
        ("nesting-8-then", nested_then(8, skip())),
        ("nesting-9-then", nested_then(9, skip())),
        ("nesting-8-else", nested_else(8, skip())),
        ("nesting-9-else", nested_else(9, skip())),
        ("loop-nesting-3", nested_while(3, skip())),
        ("loop-nesting-4", nested_while(4, skip())),
        (
            "nesting-8-with-3-loops",
            nested_while(3, nested_then(5, skip())),
        ),
        (
            "nesting-9-with-3-loops",
            nested_while(3, nested_then(6, skip())),
        ),
    ];
    let mut vectors = Vec::new();
    for (name, recipe) in accepted_or_not {
        let setting = Setting::of(&recipe).budget(1000);
        vectors.push(judge_case(&format!("k-{name}"), &setting.words));
        vectors.extend(setting.both(&format!("k-{name}")));
    }
    let over = Setting::of(&of_rows(513));
    vectors.push(judge_case("k-513-rows", &over.words));
    vectors.push(Vector::case("run-k-513-rows", over.case_text()));
    vectors.push(levels_case("k-513-rows", &over.words, 1));
    vectors.push(Vector::job("k-513-rows-is-8-in-a-job", over.job_text()));
    vectors
}
