//! The reader on random texts: recipes written out, and damaged ones.

use std::collections::BTreeMap;

use independent::random::Random;
use independent::recipes::lay;
use independent::text::{read, Reading};
use independent::texts::{random_text, Asked, Kind, KINDS};
use independent::writing::{grouped, written};

const TEXTS: u64 = 5_000;
const OLD: u32 = 77_777;

fn texts() -> impl Iterator<Item = Asked> {
    (0..TEXTS).map(|seed| random_text(&mut Random::new(seed)))
}

fn answer(text: &[u8], lent: usize) -> (Reading, Vec<u32>) {
    let mut table = vec![OLD; lent];
    (read(text, &mut table), table)
}

/// The answer where the table is long enough for every recipe.
fn answer_of(text: &[u8]) -> Reading {
    answer(text, 2048).0
}

/// How many texts there are of each kind, by the refusal that they meet.
fn tally() -> BTreeMap<(Kind, u32), u64> {
    let mut tally = BTreeMap::new();
    for asked in texts() {
        let (reading, _) = answer(&asked.text, asked.lent);
        *tally.entry((asked.kind, reading.refused)).or_default() += 1;
    }
    tally
}

#[test]
fn every_kind_occurs() {
    let tally = tally();
    let sum = |keep: &dyn Fn(Kind, u32) -> bool| -> u64 {
        let kept = tally.iter().filter(|((kind, no), _)| keep(*kind, *no));
        kept.map(|(_, count)| count).sum()
    };
    for kind in KINDS {
        assert!(sum(&|other, _| other == kind) > 250, "{kind:?}");
    }
    for number in [0, 5, 9, 10, 11, 12, 13] {
        assert!(sum(&|_, other| other == number) > 50, "{number}");
    }
    // A kind shows what it is made for, and nothing that it excludes.
    for (kind, number) in [
        (Kind::Deep, 5),
        (Kind::ManyRows, 12),
        (Kind::LongText, 9),
        (Kind::Repeated, 0),
        (Kind::Repeated, 5),
        (Kind::Repeated, 10),
        (Kind::Repeated, 12),
        (Kind::DeclaredAgain, 11),
        (Kind::WordDropped, 10),
        (Kind::WordDoubled, 10),
        (Kind::WordsExchanged, 10),
        (Kind::WordReplaced, 10),
        (Kind::WordCut, 10),
        (Kind::TextCut, 10),
        (Kind::ByteChanged, 10),
        (Kind::FewWords, 10),
        (Kind::FewWords, 0),
    ] {
        let count = sum(&|other, no| other == kind && no == number);
        assert!(count > 10, "{kind:?} {number}");
    }
    assert_eq!(sum(&|kind, no| kind == Kind::Recipe && no == 10), 0);
    assert_eq!(sum(&|kind, no| kind == Kind::ManyRows && no == 10), 0);
}

#[test]
fn a_seed_gives_the_same_text() {
    for (seed, one) in texts().take(100).enumerate() {
        let other = random_text(&mut Random::new(seed as u64));
        assert_eq!(
            (one.kind, one.text, one.lent),
            (other.kind, other.text, other.lent)
        );
    }
}

/// A tree's text has the tree's rows.
#[test]
fn written_trees_are_read() {
    for seed in 0..3_000 {
        let part = Random::new(seed).statement(4, 0);
        let text = written(&part);
        let rows = lay(&grouped(&part));
        let (reading, table) = answer(text.as_bytes(), 5_000);
        if rows.len() > 2048 {
            assert_eq!(reading.refused, 12, "{text}");
        } else {
            assert_eq!((reading.refused, reading.rows), (0, rows.len() / 4));
            assert_eq!(table[..rows.len()], rows, "{text}");
        }
    }
}

/// "No refusal writes the table; words past the rows stay", and the part is one of the text.
#[test]
fn what_an_answer_leaves() {
    for asked in texts() {
        let (reading, table) = answer(&asked.text, asked.lent);
        let kept = &table[reading.rows * 4..];
        assert!(kept.iter().all(|word| *word == OLD));
        assert_eq!(reading.rows == 0, reading.refused != 0);
        assert!(reading.marks == 0 || reading.refused == 0);
        assert!(reading.at == 0 || reading.refused == 5);
        assert!(reading.start + reading.length <= asked.text.len());
        if reading.length == 0 {
            assert_eq!(reading.start, asked.text.len());
        } else {
            assert!([10, 11].contains(&reading.refused));
        }
    }
}

/// Up to a faulty word the text is the beginning of a recipe, and whatever comes after the
/// word the fault is there.
#[test]
fn what_is_before_and_after_a_faulty_word() {
    let mut faulty = 0;
    for asked in texts().filter(|asked| asked.text.len() < 16_000) {
        let reading = answer_of(&asked.text);
        if reading.refused != 10 || reading.length == 0 {
            continue;
        }
        let before = answer_of(&asked.text[..reading.start]);
        assert!(before.refused != 10 || before.length == 0);
        let with = &asked.text[..reading.start + reading.length];
        for after in [&b""[..], b" ", b";skip", b"(", b"\nend skip"] {
            let again = answer_of(&[with, after].concat());
            let told = (again.refused, again.start, again.length);
            assert_eq!(told, (10, reading.start, reading.length));
        }
        faulty += 1;
    }
    assert!(faulty > 1_200, "{faulty}");
}

/// What stands between words makes no difference, and neither does what stands around them.
#[test]
fn spaces_make_no_difference() {
    for asked in texts() {
        let reading = answer_of(&asked.text);
        if reading.refused == 9 {
            continue;
        }
        let other: Vec<u8> = asked
            .text
            .iter()
            .map(|byte| if *byte == b'\n' { b' ' } else { *byte })
            .collect();
        assert_eq!(answer_of(&other), reading);
        let moved = Reading {
            start: reading.start + 1,
            ..reading
        };
        if asked.text.len() < 16_384 {
            assert_eq!(answer_of(&[b"\n", &asked.text[..]].concat()), moved);
        }
    }
}
