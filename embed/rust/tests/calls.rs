//! The safe functions on worked runs of docs/RULES.md.

use buzorinde::{
    check, judge, library, run, variables_in, Advice, Answer, Checked, Ended, Judged, Record,
    PROVISIONAL, SETTLED, VARIABLES,
};

/// The whole case, 12.13: v0 out on channel 0, then v1 out on channel 1.
const WHOLE: [u32; 20] = [9, 0, 0, 0, 5, 0, 0, 0, 9, 1, 0, 0, 5, 1, 2, 0, 2, 1, 3, 0];

/// Run B: output settled v0 - v0.
const B: [u32; 16] = [9, 0, 0, 0, 9, 0, 0, 0, 10, 1, 0, 1, 5, 0, 2, 0];

fn memory(inputs: &[u32]) -> [u32; VARIABLES] {
    let mut words = [0; VARIABLES];
    words[..inputs.len()].copy_from_slice(inputs);
    words
}

#[test]
fn the_whole_case() {
    let mut words = memory(&[7, 9]);
    let mut trace = [5; 6];
    let answer = run(&WHOLE, &mut words, 2, 10, &mut trace);
    assert_eq!(
        answer,
        Answer {
            ended: Ended::Done,
            steps: 2,
            records: 2,
            marks: 2
        }
    );
    assert_eq!(words, memory(&[7, 9]));
    assert_eq!(trace, [0, 7, 1, 9, 5, 5]);
}

#[test]
fn the_records_of_a_trace() {
    // a trace of 7 words has room for more than both records, and one of 3 words for the first
    let records = |words: usize| -> Vec<Record> {
        let mut trace = vec![5; words];
        let answer = run(&WHOLE, &mut memory(&[7, 9]), 2, 10, &mut trace);
        answer.records_in(&trace).collect()
    };
    let record = |channel, value| Record { channel, value };
    assert_eq!(records(7), [record(SETTLED, 7), record(PROVISIONAL, 9)]);
    assert_eq!(records(3), [record(SETTLED, 7)]);
    assert_eq!(records(1), []);
}

#[test]
fn each_verdict() {
    let ended = |table: &[u32], marks, budget, words: usize| {
        run(
            table,
            &mut memory(&[7, 9]),
            marks,
            budget,
            &mut vec![0; words],
        )
        .ended
    };
    assert_eq!(ended(&WHOLE, 2, 2, 4), Ended::Done);
    assert_eq!(ended(&B, 1, 100, 0), Ended::Stopped { row: 3, because: 1 });
    assert_eq!(ended(&WHOLE, 2, 1, 4), Ended::Spent);
    assert_eq!(ended(&WHOLE, 2, 10, 3), Ended::NoRoom(3));
    assert_eq!(
        ended(&WHOLE[..19], 2, 10, 4),
        Ended::Refused { number: 1, row: 0 }
    );
    assert_eq!(
        ended(&WHOLE, 2, 10, 16385),
        Ended::Refused { number: 6, row: 0 }
    );
}

/// Runs 12.14 and G: what a run is stopped because of, which of the marks alone does not say.
#[test]
fn what_a_run_is_stopped_because_of() {
    let sum = [
        9, 0, 0, 0, 9, 1, 0, 0, 9, 2, 0, 0, 10, 0, 1, 2, 10, 0, 0, 3, 5, 0, 4, 0,
    ];
    let inside = [
        9, 0, 0, 0, 9, 1, 0, 0, 5, 0, 1, 0, 8, 0, 0, 0, 1, 2, 3, 0, 3, 0, 2, 4,
    ];
    let g = [9, 0, 0, 0, 8, 5, 0, 0, 5, 0, 1, 0, 0, 0, 0, 0, 3, 0, 2, 3];
    let ended = |table: &[u32], marks| run(table, &mut memory(&[1]), marks, 100, &mut []).ended;
    assert_eq!(ended(&sum, 13), Ended::Stopped { row: 5, because: 5 });
    assert_eq!(ended(&inside, 3), Ended::Stopped { row: 2, because: 2 });
    assert_eq!(ended(&g, 1), Ended::Stopped { row: 2, because: 0 });
    assert_eq!(variables_in(5).collect::<Vec<u32>>(), [0, 2]);
    assert_eq!(variables_in(1 << 31).collect::<Vec<u32>>(), [31]);
    assert_eq!(variables_in(0).count(), 0);
}

/// The words of an answer that a caller of the library lends a buffer of so many words for, and the status.
fn answer_words(table: &[u32], words: usize) -> (u32, Vec<u32>) {
    let mut answer = vec![5; words];
    let mut memory = memory(&[7, 9]);
    // SAFETY: each pointer comes from a slice with its length, and no two of those that are written are the same.
    let status = unsafe {
        library::buzorinde_run(
            table.as_ptr(),
            table.len(),
            memory.as_mut_ptr(),
            memory.len(),
            1,
            100,
            [].as_mut_ptr(),
            0,
            answer.as_mut_ptr(),
            answer.len(),
        )
    };
    (status, answer)
}

/// A caller with the length before version 0.4.0 is told so, and its buffer is as it was.
#[test]
fn six_words_are_too_short() {
    assert_eq!(answer_words(&B, 6), (1, vec![5; 6]));
    assert_eq!(answer_words(&B, 8), (0, vec![0, 1, 3, 0, 0, 1, 1, 5]));
}

#[test]
fn an_assignment_is_in_the_memory_afterwards() {
    // v3 := v1 * v1, with v1 provisional
    let table = [9, 1, 0, 0, 9, 1, 0, 0, 10, 2, 0, 1, 1, 3, 2, 0];
    let mut words = memory(&[7, 9]);
    let answer = run(&table, &mut words, 2, 10, &mut []);
    assert_eq!(
        answer,
        Answer {
            ended: Ended::Done,
            steps: 1,
            records: 0,
            marks: 10
        }
    );
    assert_eq!(words, memory(&[7, 9, 0, 81]));
}

#[test]
fn the_judge() {
    assert_eq!(judge(&WHOLE), Judged::Accepted);
    assert_eq!(judge(&[]), Judged::Refused { number: 1, row: 0 });
    assert_eq!(
        judge(&[0, 0, 0, 0, 7, 0, 0, 0]),
        Judged::Refused { number: 2, row: 1 }
    );
}

#[test]
fn the_level_check() {
    assert_eq!(
        check(&WHOLE, 2),
        Advice {
            checked: Checked::Pass,
            marks: 2
        }
    );
    assert_eq!(
        check(&B, 1),
        Advice {
            checked: Checked::Fail(3),
            marks: 1
        }
    );
    assert_eq!(
        check(&WHOLE[..19], 7),
        Advice {
            checked: Checked::Refused { number: 1, row: 0 },
            marks: 7
        }
    );
    // v1 := v0 while v0 is provisional, then v1 is marked
    let table = [9, 0, 0, 0, 1, 1, 0, 0];
    assert_eq!(
        check(&table, 1),
        Advice {
            checked: Checked::Pass,
            marks: 3
        }
    );
}
