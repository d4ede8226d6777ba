//! The refusals of tables: the request's table of numbers, row by row, and their order.

use super::*;
use independent::levels::{levels, Outcome};
use independent::recipes::*;
use independent::run::unwatched;
use independent::table::judge;

fn judged(rows: &[[u32; 4]]) -> Option<(u32, u32)> {
    judged_words(&rows.concat())
}

fn judged_words(words: &[u32]) -> Option<(u32, u32)> {
    judge(words)
        .err()
        .map(|refusal| (refusal.number, refusal.at))
}

const SKIPPED: [u32; 4] = [0, 0, 0, 0];
const FIVE: [u32; 4] = [8, 5, 0, 0];

#[test]
fn number_1() {
    for count in [0, 1, 2, 3, 5, 6, 7, 9, 2047, 2049, 2052, 4096] {
        assert_eq!(judged_words(&vec![0; count]), Some((1, 0)), "{count}");
    }
    assert_eq!(judged_words(&[0; 4]), None);
    assert_ne!(judged_words(&[0; 2048]), Some((1, 0)));
}

#[test]
fn number_2() {
    let faulty = [
        [6, 0, 0, 0],
        [7, 0, 0, 0],
        [11, 0, 0, 0],
        [4294967295, 0, 0, 0],
        [0, 1, 0, 0],
        [0, 0, 1, 0],
        [0, 0, 0, 1],
        [1, 32, 0, 0],
        [1, 0, 0, 1],
        [2, 0, 0, 1],
        [4, 0, 0, 1],
        [5, 2, 0, 0],
        [5, 0, 0, 1],
        [8, 0, 1, 0],
        [8, 0, 0, 1],
        [9, 32, 0, 0],
        [9, 0, 1, 0],
        [9, 0, 0, 1],
        [10, 6, 0, 0],
    ];
    for row in faulty {
        assert_eq!(judged(&[row]), Some((2, 0)), "{row:?}");
        assert_eq!(judged(&[SKIPPED, row]), Some((2, 1)), "{row:?}");
    }
    for row in [[1, 31, 0, 0], [5, 1, 0, 0], [10, 5, 0, 0], [3, 0, 0, 0]] {
        assert_eq!(judged(&[row]), Some((3, 0)), "{row:?}");
    }
    for row in [[8, 4294967295, 0, 0], [9, 31, 0, 0]] {
        assert_eq!(judged(&[row]), Some((4, 0)), "{row:?}");
    }
}

/// Row 0 is an expression, row 1 a statement, and row 2 asks for one of each sort.
#[test]
fn number_3() {
    let accepted_sorts = [
        [1, 0, 0, 0],
        [2, 1, 1, 0],
        [3, 0, 1, 1],
        [4, 0, 1, 0],
        [5, 0, 0, 0],
        [10, 0, 0, 0],
    ];
    let places = [
        (0, vec![2]),
        (1, vec![1, 2]),
        (2, vec![1, 2, 3]),
        (3, vec![1, 2]),
        (4, vec![2]),
        (5, vec![2, 3]),
    ];
    for (row, words) in places {
        let row = accepted_sorts[row];
        let number = judged(&[FIVE, SKIPPED, row]).map(|(number, _)| number);
        assert_ne!(number, Some(3), "{row:?}");
        for word in words {
            let wrong_sort = 1 - row[word];
            for child in [wrong_sort, 2, 3, 4294967295] {
                let mut changed = row;
                changed[word] = child;
                let judged = judged(&[FIVE, SKIPPED, changed, SKIPPED]);
                assert_eq!(judged, Some((3, 2)), "{changed:?}");
            }
        }
    }
}

#[test]
fn number_4() {
    assert_eq!(judged(&[FIVE]), Some((4, 0)));
    assert_eq!(judged(&[FIVE, FIVE, [10, 0, 0, 1]]), Some((4, 2)));
    assert_eq!(judged(&[SKIPPED, SKIPPED]), Some((4, 0)));
    assert_eq!(judged(&[FIVE, SKIPPED, [5, 0, 0, 0]]), Some((4, 1)));
    // Used twice by one row, by two rows, and as both branches.
    assert_eq!(judged(&[FIVE, [10, 0, 0, 0], [5, 0, 1, 0]]), Some((4, 0)));
    assert_eq!(judged(&[SKIPPED, [2, 0, 0, 0]]), Some((4, 0)));
    assert_eq!(judged(&[FIVE, SKIPPED, [3, 0, 1, 1]]), Some((4, 1)));
    let shared = [FIVE, [1, 0, 0, 0], [5, 0, 0, 0], [2, 1, 2, 0]];
    assert_eq!(judged(&shared), Some((4, 0)));
    // The lowest row of any of the three.
    assert_eq!(judged(&[SKIPPED, SKIPPED, [2, 1, 1, 0]]), Some((4, 0)));
    assert_eq!(judged(&[SKIPPED, SKIPPED, [2, 0, 0, 0]]), Some((4, 0)));
    assert_eq!(judged(&[SKIPPED, FIVE]), Some((4, 0)));
}

/// A row shared at every level: a walk over it would not end.
#[test]
fn number_4_without_a_walk() {
    let chain = (1..500).map(|row| [10, 0, row - 1, row - 1]);
    let mut rows: Vec<[u32; 4]> = [FIVE].into_iter().chain(chain).collect();
    rows.push([5, 0, 499, 0]);
    assert_eq!(judged(&rows), Some((4, 0)));
}

/// The lowest row that exceeds any of the three limits.
#[test]
fn number_5() {
    // 17 leaves and 15 lower sums come before the sum of height 17.
    assert_eq!(judged_words(&lay(&output(0, tall_left(16)))), None);
    assert_eq!(judged_words(&lay(&output(0, tall_left(17)))), Some((5, 32)));
    assert_eq!(judged_words(&lay(&output(0, tall_left(20)))), Some((5, 32)));
    assert_eq!(
        judged_words(&lay(&output(0, tall_right(17)))),
        Some((5, 32))
    );
    // Four tests and the skip come first, then the whiles from the inmost out.
    assert_eq!(judged_words(&lay(&nested_while(4, skip()))), Some((5, 8)));
    // Nine tests and the inmost skip come first, then a skip and its if, nine times.
    assert_eq!(judged_words(&lay(&nested_then(9, skip()))), Some((5, 27)));
    let both = sequence(nested_while(4, skip()), output(0, tall_left(17)));
    assert_eq!(judged_words(&lay(&both)), Some((5, 8)));
    let both = sequence(output(0, tall_left(17)), nested_while(4, skip()));
    assert_eq!(judged_words(&lay(&both)), Some((5, 32)));
}

/// "a sequence takes the larger of its two"; an expression adds nothing.
#[test]
fn nesting_of_sequences() {
    let eight = || nested_then(8, skip());
    let three = || nested_while(3, skip());
    assert_eq!(judged_words(&lay(&sequence(eight(), eight()))), None);
    assert_eq!(judged_words(&lay(&sequence(three(), three()))), None);
    let tall = nested_then(8, output(0, tall_right(16)));
    assert_eq!(judged_words(&lay(&tall)), None);
    let nine = nested_then(8, sequence(skip(), nested_while(1, skip())));
    assert_eq!(judged_words(&lay(&nine)).map(|at| at.0), Some(5));
    let nine = nested_else(8, sequence(nested_then(1, skip()), skip()));
    assert_eq!(judged_words(&lay(&nine)).map(|at| at.0), Some(5));
    let four = nested_while(2, nested_else(1, nested_while(2, skip())));
    assert_eq!(judged_words(&lay(&four)).map(|at| at.0), Some(5));
    let three = nested_while(2, nested_else(4, nested_while(1, skip())));
    assert_eq!(judged_words(&lay(&three)), None);
}

/// "The lowest number from 1 to 6 that applies anywhere is given, with its lowest row."
#[test]
fn order() {
    let changed = |changes: &[(usize, usize, u32)]| {
        let mut words = lay(&a());
        for (row, word, number) in changes {
            words[row * 4 + word] = *number;
        }
        judged_words(&words)
    };
    assert_eq!(changed(&[(9, 3, 9), (1, 2, 1)]), Some((2, 9)));
    assert_eq!(changed(&[(9, 0, 7), (4, 0, 6)]), Some((2, 4)));
    assert_eq!(changed(&[(15, 1, 15), (3, 2, 0)]), Some((3, 15)));
    assert_eq!(changed(&[(15, 1, 15), (1, 2, 1)]), Some((3, 1)));
    assert_eq!(changed(&[(3, 2, 0)]), Some((4, 0)));
    assert_eq!(judged_words(&[6; 2052]), Some((1, 0)));
    assert_eq!(judged_words(&[6; 5]), Some((1, 0)));
    assert_eq!(judged_words(&[4294967295; 2048]), Some((2, 0)));
}

/// 4 in a higher row comes before 5 in a lower one.
#[test]
fn order_of_4_and_5() {
    let deep = sequence(nested_then(9, skip()), sequence(skip(), skip()));
    let mut words = lay(&deep);
    let last = words.len() / 4 - 1;
    assert_eq!(judged_words(&words), Some((5, last as u32 - 4)));
    words[(last - 1) * 4 + 2] = last as u32 - 3;
    assert_eq!(judged_words(&words), Some((4, last as u32 - 3)));
}

/// "A refused run answers its number and row [...] with 0 steps and 0 records, returns
/// memory and marks as given and writes no trace word."
#[test]
fn refused_runs() {
    let tables = [
        (vec![0; 3], refusal(1, 0)),
        (vec![6, 0, 0, 0], refusal(2, 0)),
        (vec![5, 0, 0, 0], refusal(3, 0)),
        (vec![8, 5, 0, 0], refusal(4, 0)),
        (lay(&output(0, tall_left(17))), refusal(5, 32)),
    ];
    let memory: [u32; 32] = std::array::from_fn(|variable| 100 + variable as u32);
    for (words, refusal) in tables {
        // 5 and the others come before 6.
        for lent in [0, 5, 16384, 16385] {
            let mut trace = vec![7; lent];
            let (answer, marks) = run(&words, memory, 0x8000_0005, 100, &mut trace);
            assert_eq!(answer.end, End::Refused(refusal));
            assert_eq!((answer.steps, answer.records), (0, 0));
            assert_eq!((answer.memory, marks), (memory, 0x8000_0005));
            assert_eq!(unwatched(&words, memory, 100, &mut trace), answer);
            assert!(trace.iter().all(|word| *word == 7));
        }
        let check = levels(&words, 0x8000_0005);
        assert_eq!(check, (Outcome::Refused(refusal), 0x8000_0005));
    }
}
