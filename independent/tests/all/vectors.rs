//! The vectors as a whole: one name each, every case in form, every number for no given.

use std::collections::BTreeSet;

use independent::program::streams;
use independent::vectors::{all, Form, Vector};

#[test]
fn names_are_plain_and_single() {
    let vectors = all();
    let names: BTreeSet<String> = vectors
        .iter()
        .map(|vector| format!("{:?} {}", vector.form, vector.name))
        .collect();
    assert_eq!(names.len(), vectors.len());
    let plain = |byte: u8| byte.is_ascii_lowercase() || byte.is_ascii_digit() || byte == b'-';
    assert!(vectors.iter().all(|vector| vector.name.bytes().all(plain)));
}

/// How many expected outputs have this line.
fn with_line(vectors: &[Vector], form: Form, line: &str) -> usize {
    let of_form = vectors.iter().filter(|vector| vector.form == form);
    of_form
        .filter(|vector| vector.expected().lines().any(|told| told == line))
        .count()
}

#[test]
fn every_answer_is_given() {
    let vectors = all();
    for verdict in 0..=3 {
        let line = format!("verdict={verdict}");
        assert!(with_line(&vectors, Form::Job, &line) >= 10, "{line}");
        assert!(with_line(&vectors, Form::Case, &line) >= 10, "{line}");
    }
    for because in [0, 1, 2, 4, 10, 1 << 31, u32::MAX] {
        let line = format!("because={because}");
        assert!(with_line(&vectors, Form::Job, &line) >= 1, "{line}");
        assert!(with_line(&vectors, Form::Case, &line) >= 1, "{line}");
    }
    for number in [1, 2, 3, 4, 5, 7, 8, 9] {
        let line = format!("refused={number}");
        assert!(with_line(&vectors, Form::Job, &line) >= 1, "{line}");
    }
    for number in 0..=6 {
        let line = format!("refused={number}");
        assert!(with_line(&vectors, Form::Case, &line) >= 1, "{line}");
    }
    for line in ["failed=0", "failed=1"] {
        assert!(with_line(&vectors, Form::Case, line) >= 20, "{line}");
    }
    for number in [0, 5, 9, 10, 11, 12, 13] {
        let line = format!("refused={number}");
        assert!(with_line(&vectors, Form::Text, &line) >= 5, "{line}");
    }
}

/// "The report gains `because=` after `place=`"; what is refused has none.
#[test]
fn because_stands_after_place() {
    for vector in all() {
        let expected = vector.expected();
        let lines = expected.lines().filter_map(|line| line.split_once('='));
        let keys: Vec<&str> = lines.map(|(key, _)| key).collect();
        let at = keys.iter().position(|key| *key == "because");
        if keys.starts_with(&["verdict", "place"]) {
            assert_eq!(at, Some(2), "{}", vector.name);
        } else {
            assert_eq!(at, None, "{}", vector.name);
        }
    }
}

/// Each pair of refusals of texts has a vector, which is refused by the one that comes first.
#[test]
fn every_order_of_two_refusals_is_shown() {
    const ORDER: [u32; 6] = [9, 10, 11, 12, 5, 13];
    let vectors = all();
    for (at, first) in ORDER.iter().enumerate() {
        for later in &ORDER[at + 1..] {
            let name = format!("order-{first}-before-{later}");
            let shown = vectors.iter().find(|vector| vector.name == name);
            let answer = shown.expect(&name).expected();
            assert!(answer.starts_with(&format!("refused={first}\n")), "{name}");
        }
    }
}

/// The bounds that `vectors/README.md` gives to readers with fixed buffers.
#[test]
fn sizes_are_bounded() {
    let number = |vector: &Vector, key: &str| -> usize {
        let text = String::from_utf8_lossy(&vector.input).into_owned();
        let line = text.lines().find_map(|line| line.strip_prefix(key));
        line.map_or(0, |number| number.parse().expect("a number"))
    };
    for vector in all() {
        let (most, most_expected) = match vector.form {
            Form::Case | Form::Text => (40_000, 40_000),
            Form::Job => (80_000, 150_000),
        };
        assert!(vector.input.len() <= most && vector.expected().len() <= most_expected);
        match vector.form {
            Form::Job => {}
            Form::Case => {
                assert!(number(&vector, "count=") <= 4096);
                assert!(number(&vector, "lent=") <= 16385);
            }
            Form::Text => {
                assert!(number(&vector, "lent=") <= 2060);
                assert!(number(&vector, "length=") <= 20_000);
            }
        }
    }
}

#[test]
fn every_case_has_its_form() {
    let faulty = all()
        .into_iter()
        .find(|vector| vector.expected().starts_with("faulty"));
    assert_eq!(faulty.map(|vector| vector.name), None);
}

/// What the program `cases` reads, whose buffer is fixed: numbers, a line each, and a 0 at the end.
#[test]
fn program_streams_are_in_form() {
    let streams = streams();
    assert!(streams.stdin.len() < 200_000);
    assert!(streams.stdin.ends_with("\n0\n"));
    let number = |word: &str| word.parse::<u32>().is_ok();
    assert!(streams.stdin.lines().all(number));
    assert!(streams
        .stdout
        .lines()
        .all(|line| line.split(' ').all(number)));
    assert!(streams.stdout.lines().count() > 300);
    // Whether refused, verdict, place, because, steps, marks: A, and a run that 6 refuses.
    for run in ["0 1 17 4 8 7 0 ", "1 6 0 0 0 1 0 "] {
        let told = |line: &str| line.starts_with(run);
        assert!(streams.stdout.lines().any(told), "{run}");
    }
}
