//! Prints how long the proved functions take beside Rust written by hand, in one run: the workloads are repeated and the
//! sides take turns, so that a slow moment of the machine meets them all. Ratios are of the least times.

mod jobs;
mod judge;
mod levels;
mod operate;
mod reader;
mod recipe;
mod texts;
mod unwatched;
mod watched;
mod workloads;

use buzorinde::{Answer, Reading, MOST_TABLE_WORDS, VARIABLES};
use std::hint::black_box;
use std::process::Command;
use std::time::Instant;
use texts::Text;
use workloads::Workload;

type Run = fn(&[u32], &mut [u32; VARIABLES], u32, u32, &mut [u32]) -> Answer;

type Reader = for<'a> fn(&'a [u8], &mut [u32]) -> Reading<'a>;

const READERS: [Reader; 2] = [buzorinde::read, reader::read];

/// The nanoseconds of one call, least and median.
struct Times {
    least: f64,
    median: f64,
}

/// Times each side, in turns.
fn measure<const N: usize>(
    repetitions: usize,
    times: u32,
    mut side: impl FnMut(usize),
) -> [Times; N] {
    let mut taken: [Vec<f64>; N] = std::array::from_fn(|_| Vec::with_capacity(repetitions));
    for _ in 0..repetitions {
        for (i, of_side) in taken.iter_mut().enumerate() {
            let began = Instant::now();
            for _ in 0..times {
                side(i);
            }
            of_side.push(began.elapsed().as_nanos() as f64 / f64::from(times));
        }
    }
    taken.map(|mut of_side| {
        of_side.sort_by(f64::total_cmp);
        Times {
            least: of_side[0],
            median: of_side[of_side.len() / 2],
        }
    })
}

/// The whole answer of a run: what it answers, the memory and the trace.
fn whole(run: Run, work: &Workload) -> (Answer, [u32; VARIABLES], Vec<u32>) {
    let mut memory = [0; VARIABLES];
    let mut trace = vec![7; work.trace_words];
    let answer = run(
        &work.table,
        &mut memory,
        work.marks,
        work.budget,
        &mut trace,
    );
    (answer, memory, trace)
}

/// Fails unless all sides give the same whole answer; the unwatched one knows no marks.
fn compare(work: &Workload) -> u32 {
    let proved = whole(buzorinde::run, work);
    assert_eq!(proved, whole(watched::run, work), "{}", work.name);
    let mut plain = whole(unwatched::run, work);
    plain.0.marks = proved.0.marks;
    assert_eq!(proved, plain, "{}", work.name);
    proved.0.steps
}

fn main() {
    let words: Vec<String> = std::env::args().skip(1).collect();
    if words.first().is_some_and(|word| word == jobs::PLAIN) {
        return jobs::report_input();
    }
    let repetitions = words
        .first()
        .map_or(101, |word| word.parse().expect("a number of repetitions"));
    let wanted = |name: &str| {
        words.len() < 2
            || words[1..]
                .iter()
                .any(|word| name.starts_with(word.as_str()))
    };

    println!(
        "{:<42} {:>9} {:>9} | {:>8} {:>8} {:>8} | {:>8} {:>8} {:>8}",
        "", "ratio to", "ratio to", "least", "ns a step", "", "median", "ns a step", ""
    );
    println!(
        "{:<42} {:>9} {:>9} | {:>8} {:>8} {:>8} | {:>8} {:>8} {:>8}",
        "run",
        "watched",
        "unwatched",
        "proved",
        "watched",
        "unwatched",
        "proved",
        "watched",
        "unwatched"
    );
    for work in workloads::runs().iter().filter(|work| wanted(work.name)) {
        let steps = f64::from(compare(work));
        let sides: [Run; 3] = [buzorinde::run, watched::run, unwatched::run];
        let mut trace = vec![0; work.trace_words];
        let [proved, watched, plain] = measure(repetitions, work.times, |i| {
            let mut memory = [0; VARIABLES];
            black_box(sides[i](
                black_box(&work.table),
                &mut memory,
                work.marks,
                work.budget,
                &mut trace,
            ));
        });
        println!(
            "{:<42} {:>9.2} {:>9.2} | {:>8.2} {:>8.2} {:>8.2} | {:>8.2} {:>8.2} {:>8.2}",
            work.name,
            proved.least / watched.least,
            proved.least / plain.least,
            proved.least / steps,
            watched.least / steps,
            plain.least / steps,
            proved.median / steps,
            watched.median / steps,
            plain.median / steps,
        );
    }

    println!();
    println!(
        "{:<42} {:>9} {:>9} | {:>8} {:>8} {:>8} | {:>8} {:>8}",
        "", "ratio to", "", "least", "us", "", "median", "us"
    );
    println!(
        "{:<42} {:>9} {:>9} | {:>8} {:>8} {:>8} | {:>8} {:>8}",
        "judge, level check, texts and jobs",
        "by hand",
        "",
        "proved",
        "by hand",
        "",
        "proved",
        "by hand"
    );
    for (name, table) in workloads::judged().iter().filter(|(name, _)| wanted(name)) {
        assert_eq!(buzorinde::judge(table), judge::judge(table), "{name}");
        let times = measure(repetitions, 100, |i| {
            let table = black_box(table.as_slice());
            black_box(if i == 0 {
                buzorinde::judge(table)
            } else {
                judge::judge(table)
            });
        });
        print_pair(name, times);
    }
    for (name, table, times) in workloads::checked()
        .iter()
        .filter(|(name, ..)| wanted(name))
    {
        assert_eq!(
            buzorinde::check(table, 1),
            levels::check(table, 1),
            "{name}"
        );
        let times = measure(repetitions, *times, |i| {
            let table = black_box(table.as_slice());
            black_box(if i == 0 {
                buzorinde::check(table, 1)
            } else {
                levels::check(table, 1)
            });
        });
        print_pair(name, times);
    }
    for text in texts::accepted().iter().filter(|text| wanted(text.name)) {
        print_text(repetitions, text);
    }
    for work in workloads::jobs().iter().filter(|work| wanted(work.name)) {
        print_job(repetitions, work);
    }
    if words.len() < 2 {
        print_growth(repetitions);
    }
}

/// The whole answer of a reading: what it answers, and the table.
fn whole_reading(read: Reader, text: &Text) -> (Reading<'_>, Vec<u32>) {
    let mut table = vec![7; MOST_TABLE_WORDS];
    (read(&text.bytes, &mut table), table)
}

/// Fails unless both sides give the same whole answer.
fn compare_readings(text: &Text) {
    let [proved, by_hand] = READERS.map(|read| whole_reading(read, text));
    assert!(proved == by_hand, "{}", text.name);
}

/// A line for a text.
fn print_text(repetitions: usize, text: &Text) {
    compare_readings(text);
    let mut table = [0; MOST_TABLE_WORDS];
    let times = measure(repetitions, text.times, |i| {
        black_box(READERS[i](black_box(&text.bytes), &mut table));
    });
    print_pair(text.name, times);
}

/// A line for a job: each side is a program that is started, given the job, and read to its end.
fn print_job(repetitions: usize, work: &Workload) {
    let job = jobs::text(work);
    let plain = std::env::current_exe().expect("the benchmark has a path");
    let answer = |i| match i {
        0 => jobs::answer(&mut Command::new("target/bin/watch"), &job),
        _ => jobs::answer(Command::new(&plain).arg(jobs::PLAIN), &job),
    };
    assert_eq!(answer(0), answer(1), "{}", work.name);
    let times = measure(repetitions, work.times, |i| {
        black_box(answer(i));
    });
    print_pair(work.name, times);
}

/// How the proved run grows with its steps, the proved judge with its rows, and the proved reader with the text's bytes.
fn print_growth(repetitions: usize) {
    println!();
    println!(
        "{:<42} {:>12} {:>12}",
        "how it grows", "least, ns", "ns for each"
    );
    for work in workloads::longer_runs() {
        let [proved] = measure(repetitions, work.times, |_| {
            black_box(buzorinde::run(
                black_box(&work.table),
                &mut [0; VARIABLES],
                work.marks,
                work.budget,
                &mut [],
            ));
        });
        println!(
            "{:<42} {:>12.0} {:>12.2}",
            format!("{}, {} steps", work.name, work.budget),
            proved.least,
            proved.least / f64::from(work.budget)
        );
    }
    for table in workloads::longer_tables() {
        let rows = table.len() / 4;
        let [proved] = measure(repetitions, 100, |_| {
            black_box(buzorinde::judge(black_box(&table)));
        });
        println!(
            "{:<42} {:>12.0} {:>12.2}",
            format!("judge, {rows} rows"),
            proved.least,
            proved.least / rows as f64
        );
    }
    for text in texts::longer() {
        compare_readings(&text);
        let bytes = text.bytes.len();
        let mut table = [0; MOST_TABLE_WORDS];
        let [proved] = measure(repetitions, text.times, |_| {
            black_box(buzorinde::read(black_box(&text.bytes), &mut table));
        });
        println!(
            "{:<42} {:>12.0} {:>12.2}",
            format!("{}, {bytes} bytes", text.name),
            proved.least,
            proved.least / bytes as f64
        );
    }
}

/// A line of microseconds a call.
fn print_pair(name: &str, [proved, by_hand]: [Times; 2]) {
    println!(
        "{:<42} {:>9.2} {:>9} | {:>8.2} {:>8.2} {:>8} | {:>8.2} {:>8.2}",
        name,
        proved.least / by_hand.least,
        "",
        proved.least / 1000.0,
        by_hand.least / 1000.0,
        "",
        proved.median / 1000.0,
        by_hand.median / 1000.0,
    );
}
