//! Properties at random, with fixed seeds; each counts how often it had something to say.

use super::*;
use independent::job::report;
use independent::levels::{levels, levels_by, Method, Outcome};
use independent::marks::{from_bits, within};
use independent::random::Random;
use independent::recipes::{output, sequence};
use independent::rows::{row_at, value_at};
use independent::run::{run_told, unwatched, Ending};
use independent::table::judge;
use independent::vectors::Setting;

const RECIPES: usize = 20_000;

/// How often each verdict was given.
#[derive(Default)]
struct Verdicts([usize; 4]);

impl Verdicts {
    fn count(&mut self, ran: &Ran) {
        self.0[ran.verdict() as usize] += 1;
    }

    /// Each verdict in a good part of the runs.
    fn are_all_common(&self) {
        let runs: usize = self.0.iter().sum();
        for (verdict, count) in self.0.iter().enumerate() {
            assert!(count * 25 > runs, "verdict {verdict}: {count} of {runs}");
        }
    }
}

fn given(random: &mut Random) -> Given {
    Given {
        memory: random.memory(),
        marks: random.marks(),
        budget: random.one_of(&[5, 30, 100, 1000, 1000]),
        room: random.one_of(&[0, 1, 2, 5, 30, 30]),
    }
}

/// Another memory that is equal in every settled variable, with another budget and room.
fn alike(one: Given, random: &mut Random) -> Given {
    let marks = from_bits(one.marks);
    let mut other = given(random).marks(one.marks);
    for variable in (0..32).filter(|variable| !marks[*variable]) {
        other.memory[variable] = one.memory[variable];
    }
    other
}

/// Two runs from memories that are equal in every settled variable: one's settled records
/// begin the other's; where both are done, settled records, final marks, and all that is
/// left settled are equal.
#[test]
fn settled_records_tell_nothing_provisional() {
    let mut random = Random::new(1);
    let mut verdicts = Verdicts::default();
    let (mut told, mut both_done, mut differ) = (0, 0, 0);
    for _ in 0..RECIPES {
        let words = random.recipe();
        let one_given = given(&mut random);
        let other_given = alike(one_given, &mut random);
        let (one, other) = (run_words(&words, one_given), run_words(&words, other_given));
        let (few, many) = (one.settled_records(), other.settled_records());
        assert!(few.starts_with(&many) || many.starts_with(&few));
        told += usize::from(!few.is_empty() && !many.is_empty());
        verdicts.count(&one);
        verdicts.count(&other);
        if one.done() && other.done() {
            both_done += 1;
            differ += usize::from(one.answer.memory != other.answer.memory);
            assert_eq!((few, one.marks), (many, other.marks));
            let marks = from_bits(one.marks);
            for variable in (0..32).filter(|variable| !marks[*variable]) {
                assert_eq!(one.answer.memory[variable], other.answer.memory[variable]);
            }
        }
    }
    verdicts.are_all_common();
    let often = told * 10 > RECIPES && both_done * 5 > RECIPES && differ * 10 > RECIPES;
    assert!(often, "{told}, {both_done}, {differ} of {RECIPES}");
}

/// What the level check passes is never stopped, and a done run marks no more than it does.
#[test]
fn what_passes_is_never_stopped() {
    let mut random = Random::new(2);
    let (mut verdicts, mut passed, mut done) = (Verdicts::default(), 0, 0);
    for _ in 0..RECIPES {
        let words = random.recipe();
        let given = given(&mut random);
        let (outcome, final_marks) = levels(&words, given.marks);
        let ran = run_words(&words, given);
        verdicts.count(&ran);
        if outcome == Outcome::Pass {
            passed += 1;
            assert_ne!(ran.verdict(), Verdict::Denied as u32);
        }
        if ran.done() {
            done += 1;
            assert!(within(&from_bits(ran.marks), &from_bits(final_marks)));
        }
    }
    verdicts.are_all_common();
    assert!(passed * 5 > RECIPES && (RECIPES - passed) * 5 > RECIPES);
    assert!(done * 5 > RECIPES);
}

/// A run that the monitor does not stop has the unwatched run's steps, records and memory;
/// one that it stops has those of the unwatched run with just that budget.
#[test]
fn the_monitor_only_stops() {
    let mut random = Random::new(3);
    let mut verdicts = Verdicts::default();
    for _ in 0..RECIPES {
        let words = random.recipe();
        let given = given(&mut random);
        let ran = run_words(&words, given);
        verdicts.count(&ran);
        assert!(ran.answer.steps <= given.budget);
        let denied = ran.verdict() == Verdict::Denied as u32;
        let budget = if denied {
            ran.answer.steps
        } else {
            given.budget
        };
        let mut trace = vec![u32::MAX; given.room * 2];
        let free = unwatched(&words, given.memory, budget, &mut trace);
        let records: Vec<u32> = ran.records.iter().flat_map(|(c, v)| [*c, *v]).collect();
        assert!(trace.starts_with(&records) && free.records == ran.records.len());
        assert_eq!(
            (free.memory, free.steps),
            (ran.answer.memory, ran.answer.steps)
        );
        if !denied {
            assert_eq!(free.end, ran.answer.end);
        }
    }
    verdicts.are_all_common();
}

/// A recipe with an output at its end that reads more than those of random recipes do.
fn ended_by_an_output(random: &mut Random) -> Vec<u32> {
    let part = sequence(random.statement(2, 0), output(0, random.tall(4)));
    lay(&part)
}

fn run_to_its_ending(words: &[u32], given: Given) -> Ending {
    let mut trace = vec![u32::MAX; given.room * 2];
    let Given {
        memory,
        marks,
        budget,
        ..
    } = given;
    run_told(words, memory, marks, budget, &mut trace, &mut |_, _| {})
}

/// A denied output is denied because of marked variables that its row reads, as the rows have
/// it; where there is none the context was provisional. A run with another verdict has none.
#[test]
fn because_is_the_level_of_the_denied_row() {
    let mut random = Random::new(10);
    let (mut by_context, mut by_both, mut by_one, mut by_several) = (0, 0, 0, 0);
    for _ in 0..RECIPES {
        let words = if random.percent(50) {
            random.recipe()
        } else {
            ended_by_an_output(&mut random)
        };
        let ending = run_to_its_ending(&words, given(&mut random));
        let End::Ended {
            verdict,
            place,
            because,
        } = ending.answer.end
        else {
            panic!("a recipe is refused");
        };
        if verdict != Verdict::Denied {
            assert_eq!(because, 0);
            continue;
        }
        assert!(within(&from_bits(because), &from_bits(ending.marks)));
        assert!(because != 0 || ending.context);
        let [_, _, expression, _] = row_at(&words, place).expect("the place is a row");
        let memory = &ending.answer.memory;
        let valued = value_at(&words, expression, memory, ending.marks);
        assert_eq!(valued.map(|valued| valued.level), Ok(because));
        let count = match (because.count_ones(), ending.context) {
            (0, _) => &mut by_context,
            (_, true) => &mut by_both,
            (1, false) => &mut by_one,
            (_, false) => &mut by_several,
        };
        *count += 1;
    }
    let counts = [by_context, by_both, by_one, by_several];
    assert!(
        counts.iter().all(|count| count * 100 > RECIPES),
        "{counts:?}"
    );
}

/// A marked variable that no row names changes nothing, but that it stays marked.
#[test]
fn marks_of_other_variables_do_not_matter() {
    let mut random = Random::new(13);
    let mut denied = 0;
    for _ in 0..RECIPES / 4 {
        let words = random.recipe();
        let given = given(&mut random);
        // Random recipes name the lowest variables alone.
        let (few, many) = (given.marks & 0xFFFF, given.marks | 0xFFFF_0000);
        let (one, other) = (
            run_words(&words, given.marks(few)),
            run_words(&words, given.marks(many)),
        );
        assert_eq!(one.answer, other.answer);
        assert_eq!(one.marks | 0xFFFF_0000, other.marks);
        assert_eq!(one.records, other.records);
        denied += usize::from(one.verdict() == Verdict::Denied as u32);
    }
    assert!(denied * 10 > RECIPES / 4, "{denied}");
}

/// A smaller budget or room gives the beginning of the same run.
#[test]
fn less_is_the_beginning() {
    let mut random = Random::new(4);
    for _ in 0..RECIPES / 4 {
        let words = random.recipe();
        let given = given(&mut random);
        let whole = run_words(&words, given);
        let steps = whole.answer.steps;
        for budget in [steps, steps.saturating_sub(1), steps / 2] {
            let part = run_words(&words, given.budget(budget));
            assert_eq!(part.answer.steps, budget);
            assert!(whole.records.starts_with(&part.records));
            if budget < steps {
                assert_eq!(part.verdict(), Verdict::BudgetUsed as u32);
            }
        }
        let room = whole.records.len();
        let exact = run_words(&words, given.room(room));
        assert_eq!((exact.answer, exact.marks), (whole.answer, whole.marks));
        if room > 0 {
            let short = run_words(&words, given.room(room - 1));
            assert_eq!(short.verdict(), Verdict::NoRoom as u32);
            assert_eq!(short.records, whole.records[..room - 1]);
        }
    }
}

/// Searching the least set and growing it by rounds give one answer.
#[test]
fn methods_agree() {
    let mut random = Random::new(5);
    let mut failed = 0;
    for _ in 0..RECIPES {
        let words = random.recipe();
        let marks = random.marks();
        let rounds = levels_by(Method::Rounds, &words, marks);
        assert_eq!(levels_by(Method::Search, &words, marks), rounds);
        assert_eq!(levels(&words, marks), rounds);
        failed += usize::from(rounds.0 != Outcome::Pass);
    }
    assert!(failed * 5 > RECIPES && (RECIPES - failed) * 5 > RECIPES);
}

/// More marks at the start never make a check pass, nor the final marks fewer.
#[test]
fn check_is_monotone() {
    let mut random = Random::new(6);
    for _ in 0..RECIPES {
        let words = random.recipe();
        let fewer = random.marks();
        let more = fewer | random.marks();
        let (few, many) = (levels(&words, fewer), levels(&words, more));
        assert!(few.0 == Outcome::Pass || many.0 != Outcome::Pass);
        assert!(within(&from_bits(few.1), &from_bits(many.1)));
    }
}

/// Rows in another order, children before parents, are the same recipe.
#[test]
fn order_of_rows_does_not_matter() {
    let mut random = Random::new(7);
    for _ in 0..RECIPES / 4 {
        let words = random.recipe();
        let moved = random.reordered(&words);
        let given = given(&mut random);
        let (one, other) = (run_words(&words, given), run_words(&moved, given));
        assert_eq!(one.verdict(), other.verdict());
        assert_eq!(one.because(), other.because());
        assert_eq!(one.answer.steps, other.answer.steps);
        assert_eq!((one.marks, one.records), (other.marks, other.records));
        let (one, other) = (levels(&words, given.marks), levels(&moved, given.marks));
        assert_eq!(one.1, other.1);
        assert_eq!(one.0 == Outcome::Pass, other.0 == Outcome::Pass);
    }
}

/// A damaged table is refused in the same way by judge, run and check, or runs; and its job
/// has a report.
#[test]
fn damaged_tables() {
    let mut random = Random::new(8);
    let mut refused = [0; 7];
    for _ in 0..RECIPES {
        let recipe = random.recipe();
        let words = random.damaged(&recipe);
        let given = given(&mut random);
        let mut trace = vec![0; given.room * 2];
        let (answer, _) = run(&words, given.memory, given.marks, given.budget, &mut trace);
        let (outcome, _) = levels(&words, given.marks);
        match judge(&words) {
            Err(refusal) => {
                refused[refusal.number as usize] += 1;
                assert_eq!(answer.end, End::Refused(refusal));
                assert_eq!(outcome, Outcome::Refused(refusal));
            }
            Ok(_) => {
                refused[0] += 1;
                assert!(matches!(answer.end, End::Ended { .. }));
                assert!(!matches!(outcome, Outcome::Refused(_)));
            }
        }
    }
    assert!(
        refused[..5].iter().all(|count| *count > RECIPES / 100),
        "{refused:?}"
    );
}

/// A job with a few bytes changed, dropped or added has a report.
#[test]
fn damaged_jobs() {
    let mut random = Random::new(9);
    let mut refused = 0;
    for _ in 0..RECIPES {
        let words = random.recipe();
        let setting = Setting::of_words(words).inputs(&random.memory()[..6]);
        let mut job = setting.levels(random.marks()).job_text().into_bytes();
        for _ in 0..=random.below(2) {
            let at = random.below(job.len() as u32) as usize;
            match random.below(3) {
                0 => job[at] = random.one_of(b"0123456789,=\n rowin\0\xFF"),
                1 => drop(job.remove(at)),
                _ => job.insert(at, random.one_of(b"0123456789,=\n")),
            }
        }
        let report = report(&job);
        let by_number = report.starts_with("refused=");
        assert!(by_number || report.starts_with("verdict="));
        refused += usize::from(by_number);
    }
    assert!(refused > RECIPES / 2 && refused < RECIPES);
}
