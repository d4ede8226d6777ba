//! The values that the request states for its whole case and for A to K; then L to P.

use super::*;
use independent::job::report;
use independent::levels::{levels, Outcome};
use independent::recipes::*;
use independent::table::judge;
use independent::tree::Operator;

#[test]
fn whole_case() {
    let job = "budget=10\nroom=2\nlevels=2\ninputs=2\nin=7\nin=9\nrows=5\nrow=9,0,0,0\n\
               row=5,0,0,0\nrow=9,1,0,0\nrow=5,1,2,0\nrow=2,1,3,0\n";
    let expected = "verdict=0\nplace=0\nbecause=0\nsteps=2\nlevels=2\nmarked=1\n\
                    mem=7,9,0,0,0,0,0,0,0,0,0,0,0,0,0,0,0,0,0,0,0,0,0,0,0,0,0,0,0,0,0,0\n\
                    records=2\nout=0,7\nout=1,9\n";
    assert_eq!(report(job.as_bytes()), expected);
}

/// The whole case again, from its recipe: the layout is the request's.
#[test]
fn whole_case_laid_out() {
    let recipe = sequence(output(0, variable(0)), output(1, variable(1)));
    let rows = [
        [9, 0, 0, 0],
        [5, 0, 0, 0],
        [9, 1, 0, 0],
        [5, 1, 2, 0],
        [2, 1, 3, 0],
    ];
    assert_eq!(lay(&recipe), rows.concat());
}

fn stated(part: &Part, given: Given, verdict: u32, steps: u32, marks: u32) -> Ran {
    let ran = run_part(part, given);
    assert_eq!(ran.verdict(), verdict);
    assert_eq!(ran.answer.steps, steps);
    assert_eq!(ran.marks, marks);
    let place = match verdict {
        1 | 3 => output_rows(&lay(part))[0],
        _ => 0,
    };
    assert_eq!(ran.place(), place);
    if verdict != 1 {
        assert_eq!(ran.because(), 0);
    }
    ran
}

#[test]
fn a() {
    for v0 in [0, 1] {
        let ran = stated(&recipes::a(), inputs(&[v0]), 1, 8, 7);
        assert_eq!((ran.because(), ran.records), (4, vec![]));
    }
}

#[test]
fn b() {
    let ran = stated(&recipes::b(), GIVEN, 1, 0, 1);
    assert_eq!((ran.because(), ran.records), (1, vec![]));
}

#[test]
fn c() {
    for v0 in [0, 1] {
        let ran = stated(&recipes::c(), inputs(&[v0]), 0, 5, 0);
        assert_eq!(ran.records, [(0, 0)]);
    }
}

#[test]
fn d() {
    let budget = |budget: u32| GIVEN.budget(budget);
    stated(&recipes::d(), budget(0), 2, 0, 1);
    stated(&recipes::d(), budget(1), 0, 1, 1);
}

#[test]
fn e() {
    let given = inputs(&[3]);
    let ran = stated(&recipes::e(), given, 0, 11, 1);
    assert_eq!(ran.answer.memory, [0; 32]);
    let budget = |budget: u32| given.budget(budget);
    stated(&recipes::e(), budget(11), 0, 11, 1);
    stated(&recipes::e(), budget(10), 2, 10, 1);
}

#[test]
fn f() {
    for v1 in [0, 9] {
        let ran = stated(&recipes::f(), inputs(&[0, v1]), 0, 2, 3);
        assert_eq!(ran.answer.memory, inputs(&[0, v1]).memory);
    }
}

#[test]
fn g() {
    let ran = stated(&recipes::g(), inputs(&[1]), 1, 1, 1);
    assert_eq!((ran.because(), ran.records), (0, vec![]));
    let ran = stated(&recipes::g(), inputs(&[0]), 0, 3, 1);
    assert_eq!(ran.records, []);
}

#[test]
fn h() {
    for v0 in [0, 1] {
        let ran = stated(&recipes::h(), inputs(&[v0]), 0, 4, 1);
        assert_eq!(ran.records, []);
    }
    let words = lay(&recipes::h());
    let row = output_rows(&words)[0];
    assert_eq!(levels(&words, 1), (Outcome::Fail { row }, 1));
}

#[test]
fn i() {
    let words = lay(&recipes::i());
    let mut trace = [77];
    let (answer, marks) = run(&words, [0; 32], 1, 100, &mut trace);
    let end = End::Ended {
        verdict: Verdict::NoRoom,
        place: 1,
        because: 0,
    };
    assert_eq!((answer.end, answer.steps, answer.records), (end, 0, 0));
    assert_eq!((marks, trace), (1, [77]));
    let ran = stated(&recipes::b(), GIVEN.room(0), 1, 0, 1);
    assert_eq!(ran.because(), 1);
}

#[test]
fn j() {
    let value = |operator: u32, left: u32, right: u32| {
        Operator::numbered(operator).map(|known| known.value(left, right))
    };
    assert_eq!(value(0, 4294967295, 1), Some(0));
    assert_eq!(value(1, 0, 1), Some(4294967295));
    assert_eq!(value(3, 5, 0), Some(4294967295));
    // The other operators: 65536 * 65537 = 2^32 + 65536.
    assert_eq!(value(2, 65536, 65537), Some(65536));
    assert_eq!(value(3, 7, 2), Some(3));
    // By 0 the dividend does not matter; of a divisor that is not 0 it does.
    assert_eq!(value(3, 0, 0), Some(4294967295));
    assert_eq!(value(3, 4294967295, 0), Some(4294967295));
    assert_eq!((value(3, 0, 5), value(3, 5, 5)), (Some(0), Some(1)));
    assert_eq!((value(4, 3, 3), value(4, 3, 4)), (Some(1), Some(0)));
    assert_eq!((value(5, 3, 4), value(5, 4, 3)), (Some(1), Some(0)));
    assert_eq!((value(5, 3, 3), value(6, 3, 3)), (Some(0), None));
    // "32-bit unsigned": no number is below 0, and every bit counts.
    assert_eq!(value(3, 4294967295, 2), Some(2147483647));
    assert_eq!(value(5, 2147483647, 2147483648), Some(1));
    assert_eq!(
        (value(4, 65536, 0), value(4, 65536, 65536)),
        (Some(0), Some(1))
    );
}

fn refused(part: &Part) -> Option<u32> {
    judge(&lay(part)).err().map(|refusal| refusal.number)
}

#[test]
fn k_rows() {
    assert_eq!(lay(&of_rows(512)).len(), 512 * 4);
    assert_eq!(lay(&of_rows(513)).len(), 513 * 4);
    assert_eq!(refused(&of_rows(512)), None);
    assert_eq!(refused(&of_rows(513)), Some(1));
}

#[test]
fn k_depths() {
    let told = |tall: Part| output(0, tall);
    assert_eq!(refused(&told(tall_left(16))), None);
    assert_eq!(refused(&told(tall_left(17))), Some(5));
    assert_eq!(refused(&told(tall_right(16))), None);
    assert_eq!(refused(&told(tall_right(17))), Some(5));
    assert_eq!(refused(&nested_then(8, skip())), None);
    assert_eq!(refused(&nested_then(9, skip())), Some(5));
    assert_eq!(refused(&nested_else(8, skip())), None);
    assert_eq!(refused(&nested_else(9, skip())), Some(5));
    assert_eq!(refused(&nested_while(3, skip())), None);
    assert_eq!(refused(&nested_while(4, skip())), Some(5));
}

#[test]
fn k_trace_words() {
    let words = lay(&recipes::i());
    let mut trace = vec![3; 16384];
    let (answer, _) = run(&words, [0; 32], 1, 100, &mut trace);
    assert_eq!((answer.records, &trace[..3]), (1, &[0, 5, 3][..]));
    let mut trace = vec![3; 16385];
    let (answer, _) = run(&words, [0; 32], 1, 100, &mut trace);
    assert_eq!(answer.end, End::Refused(refusal(6, 0)));
    assert!(trace.iter().all(|word| *word == 3));
}

#[test]
fn l_to_o() {
    let given = inputs(&[1]);
    assert_eq!(stated(&recipes::l(), given, 1, 6, 3).because(), 2);
    assert_eq!(stated(&recipes::m(), given, 1, 4, 3).because(), 0);
    assert_eq!(stated(&recipes::n(), given, 1, 1, 1).because(), 0);
    stated(&recipes::o(), given, 0, 3, 7);
}

#[test]
fn p() {
    let words = lay(&recipes::p());
    let row = output_rows(&words)[0];
    assert_eq!(levels(&words, 1), (Outcome::Fail { row }, 3));
}

/// The recipes' module under a name of its own, as A to P are also names of tests.
mod recipes {
    pub use independent::recipes::*;
}
