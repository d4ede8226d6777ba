//! The reading of texts: what it leaves in the table, what it refuses, and which part of the text it hands back.

use buzorinde::{
    check, judge, library, read, run, Advice, Answer, Checked, Ended, Judged, Read, Reading,
    MOST_ROWS, MOST_TABLE_WORDS, MOST_TEXT_BYTES, READ_WORDS, ROW_WORDS, VARIABLES,
};

/// What every word of a table holds before it is lent.
const HELD: u32 = 900;

/// The whole case of docs/RULES.md, 12.13, as a text, and its table.
const WHOLE: &str = "in v0; in v1 provisional; settled v0; provisional v1";
const WHOLE_TABLE: [u32; 20] = [9, 0, 0, 0, 5, 0, 0, 0, 9, 1, 0, 0, 5, 1, 2, 0, 2, 1, 3, 0];

/// Reads a text into a table of so many words: what is answered, and the table afterwards.
fn read_into(words: usize, text: &str) -> (Reading<'_>, Vec<u32>) {
    let mut table = vec![HELD; words];
    let reading = read(text.as_bytes(), &mut table);
    (reading, table)
}

/// What a text is, read into a table that has room for every recipe.
fn read_alone(text: &str) -> Read {
    read_into(MOST_TABLE_WORDS, text).0.read
}

/// Whether the part that is handed back stands in the text itself, from `start` on.
fn is_part(reading: &Reading, text: &str) -> bool {
    let end = reading.start + reading.part.len();
    reading.part.as_ptr_range() == text.as_bytes()[reading.start..end].as_ptr_range()
}

/// That a text is a recipe with these rows and marks: they are the table's first words, and all others hold what they held.
#[track_caller]
fn assert_recipe(text: &str, rows: &[[u32; ROW_WORDS]], marks: u32) {
    let (reading, table) = read_into(MOST_TABLE_WORDS, text);
    let (written, kept) = table.split_at(ROW_WORDS * rows.len());
    let count = rows.len() as u32;
    assert_eq!(reading.read, Read::Recipe { rows: count, marks });
    assert_eq!(written, rows.concat());
    assert!(kept.iter().all(|&word| word == HELD));
    assert_eq!((reading.start, reading.part), (text.len(), &b""[..]));
    assert!(is_part(&reading, text));
}

/// That a text is refused by this number at this row with this part from `start` on, and that no word of the table is written.
#[track_caller]
fn assert_refused(text: &str, number: u32, row: u32, start: usize, part: &str) {
    let (reading, table) = read_into(MOST_TABLE_WORDS, text);
    assert_eq!(reading.read, Read::Refused { number, row });
    assert_eq!((reading.start, reading.part), (start, part.as_bytes()));
    assert!(is_part(&reading, text));
    assert!(table.iter().all(|&word| word == HELD));
}

/// The same of a refusal that hands back the empty part at the text's end.
#[track_caller]
fn assert_refused_at_end(text: &str, number: u32, row: u32) {
    assert_refused(text, number, row, text.len(), "");
}

/// A recipe of an even number of rows: `settled 0` has two, and each `skip` before it adds its own and a sequence's.
fn of_rows(rows: usize) -> String {
    "skip;".repeat(rows / 2 - 1) + "settled 0"
}

/// A text, with spaces after it up to so many bytes.
fn padded(text: &str, bytes: usize) -> String {
    format!("{text:bytes$}")
}

#[test]
fn every_statement_and_operator_has_its_rows() {
    let text = "in v3 settled;\nin v31 provisional;
        set v3 = (v31 * (4294967295 - 0));
        if (v0 < 1) then skip else provisional v3 end;
        while (v0 = 7) do
            set v0 = (v0 / 2);
            settled (v0 + v1)
        end
        ";
    let rows = [
        [9, 31, 0, 0],
        [8, 4294967295, 0, 0],
        [8, 0, 0, 0],
        [10, 1, 1, 2],
        [10, 2, 0, 3],
        [1, 3, 4, 0],
        [9, 0, 0, 0],
        [8, 1, 0, 0],
        [10, 5, 6, 7],
        [0, 0, 0, 0],
        [9, 3, 0, 0],
        [5, 1, 10, 0],
        [3, 8, 9, 11],
        [9, 0, 0, 0],
        [8, 7, 0, 0],
        [10, 4, 13, 14],
        [9, 0, 0, 0],
        [8, 2, 0, 0],
        [10, 3, 16, 17],
        [1, 0, 18, 0],
        [9, 0, 0, 0],
        [9, 1, 0, 0],
        [10, 0, 20, 21],
        [5, 0, 22, 0],
        [2, 19, 23, 0],
        [4, 15, 24, 0],
        [2, 12, 25, 0],
        [2, 5, 26, 0],
    ];
    assert_recipe(text, &rows, 1 << 31);
}

#[test]
fn a_text_may_be_a_single_word() {
    assert_recipe("skip", &[[0, 0, 0, 0]], 0);
}

#[test]
fn a_faulty_word_is_handed_back() {
    assert_refused("skip end", 10, 0, 5, "end");
    assert_refused("settled 007", 10, 0, 8, "007");
    assert_refused("set v32 = 1", 10, 0, 4, "v32");
    assert_refused("set v1 = v0 + 1", 10, 0, 12, "+");
    assert_refused("\tskip", 10, 0, 0, "\t");
    // one of the letter's two bytes is the word
    let text = "skip é";
    let (reading, _) = read_into(4, text);
    assert_eq!((reading.start, reading.part), (5, &text.as_bytes()[5..6]));
    assert!(is_part(&reading, text));
}

#[test]
fn a_fault_at_the_end_hands_back_the_empty_part_there() {
    assert_refused_at_end("", 10, 0);
    assert_refused_at_end(" \n ", 10, 0);
    assert_refused_at_end("skip;", 10, 0);
    assert_refused_at_end("if v0 then skip else skip \n", 10, 0);
}

#[test]
fn a_variable_that_is_declared_again_is_handed_back() {
    assert_refused("in v0; in v0 provisional; skip", 11, 0, 10, "v0");
    // the second v1 comes before the second v0
    assert_refused("in v0; in v1; in v1; in v0; skip", 11, 0, 17, "v1");
}

#[test]
fn too_long_a_text_is_refused() {
    assert_recipe(&padded("skip", MOST_TEXT_BYTES), &[[0, 0, 0, 0]], 0);
    assert_refused_at_end(&padded("skip", MOST_TEXT_BYTES + 1), 9, 0);
}

#[test]
fn too_many_rows_are_refused() {
    let text = of_rows(MOST_ROWS);
    let (reading, table) = read_into(MOST_TABLE_WORDS, &text);
    assert_eq!(
        reading.read,
        Read::Recipe {
            rows: 512,
            marks: 0
        }
    );
    assert_eq!(table[..4], [0, 0, 0, 0]);
    // 255 skips, the constant, the output, and of the 255 sequences the last is the whole recipe
    assert_eq!(table[2044..], [2, 0, 510, 0]);
    assert_eq!(judge(&table), Judged::Accepted);
    // 257 skips and 256 sequences
    assert_refused_at_end(&("skip;".repeat(256) + "skip"), 12, 0);
}

#[test]
fn too_deep_a_recipe_is_refused_at_its_row() {
    let loops = |depth: usize| "while 0 do ".repeat(depth) + "skip" + &" end".repeat(depth);
    assert_eq!(read_alone(&loops(3)), Read::Recipe { rows: 7, marks: 0 });
    // 4 constants, the skip, and the outermost of 4 loops
    assert_refused_at_end(&loops(4), 5, 8);
    let sums = |height: usize| {
        "settled ".to_string() + &"(".repeat(height - 1) + "0" + &"+0)".repeat(height - 1)
    };
    assert_eq!(read_alone(&sums(16)), Read::Recipe { rows: 32, marks: 0 });
    // a constant, and two rows for each sum
    assert_refused_at_end(&sums(17), 5, 32);
}

#[test]
fn too_short_a_table_is_refused() {
    let (reading, table) = read_into(20, WHOLE);
    assert_eq!(reading.read, Read::Recipe { rows: 5, marks: 2 });
    assert_eq!(table, WHOLE_TABLE);
    let most = of_rows(MOST_ROWS);
    let refused = Read::Refused { number: 13, row: 0 };
    for (words, text) in [(19, WHOLE), (0, WHOLE), (MOST_TABLE_WORDS - 1, &most)] {
        let (reading, table) = read_into(words, text);
        assert_eq!(reading.read, refused);
        assert_eq!((reading.start, reading.part), (text.len(), &b""[..]));
        assert!(is_part(&reading, text));
        assert_eq!(table, vec![HELD; words]);
    }
}

#[test]
fn too_short_a_table_is_the_last_refusal() {
    let number = |text: &str| read_into(0, text).0.read.refusal().map(|r| r.number());
    assert_eq!(number(&padded("skip", MOST_TEXT_BYTES + 1)), Some(9));
    assert_eq!(number("skip end"), Some(10));
    assert_eq!(number("in v0; in v0; skip"), Some(11));
    assert_eq!(number(&("skip;".repeat(256) + "skip")), Some(12));
    let loops = "while 0 do ".repeat(4) + "skip end end end end";
    assert_eq!(number(&loops), Some(5));
    assert_eq!(number("skip"), Some(13));
}

/// Reads a text, judges and checks the table that it has, and runs it from these inputs with its marks.
fn read_and_run(text: &str, inputs: &[u32]) -> (Vec<u32>, Advice, Answer) {
    let (reading, mut table) = read_into(MOST_TABLE_WORDS, text);
    let Read::Recipe { rows, marks } = reading.read else {
        panic!("{}", reading.read)
    };
    table.truncate(ROW_WORDS * rows as usize);
    assert_eq!(judge(&table), Judged::Accepted);
    let mut memory = [0; VARIABLES];
    memory[..inputs.len()].copy_from_slice(inputs);
    let answer = run(&table, &mut memory, marks, 100, &mut [0; 16]);
    let advice = check(&table, marks);
    (table, advice, answer)
}

#[test]
fn run_b_as_a_text() {
    let (table, advice, answer) = read_and_run("in v0 provisional; settled (v0 - v0)", &[]);
    assert_eq!(table, [9, 0, 0, 0, 9, 0, 0, 0, 10, 1, 0, 1, 5, 0, 2, 0]);
    assert_eq!(advice.checked, Checked::Fail(3));
    assert_eq!(answer.ended, Ended::Stopped { row: 3, because: 1 });
    assert_eq!(answer.steps, 0);
}

/// The cut-off interview of examples/, which ends as the report there says.
#[test]
fn the_cut_off_interview_as_a_text() {
    let text = "in v0 provisional; in v1 settled; in v2 settled;
        set v1 = 0;
        if (v0 < v2) then set v1 = 1 else skip end;
        if v1 then settled 0 else settled 1 end";
    let (_, advice, answer) = read_and_run(text, &[5000, 0, 5000]);
    assert_eq!(
        advice,
        Advice {
            checked: Checked::Fail(11),
            marks: 3
        }
    );
    assert_eq!(
        answer,
        Answer {
            ended: Ended::Stopped {
                row: 13,
                because: 0
            },
            steps: 5,
            records: 0,
            marks: 3
        }
    );
}

/// Reads the whole case into buffers of so many words, as C does: the status, the table and the answer.
fn call(table_words: usize, answer_words: usize) -> (u32, Vec<u32>, Vec<u32>) {
    let mut table = vec![HELD; table_words];
    let mut answer = vec![HELD; answer_words];
    // SAFETY: each pointer comes from a slice with its length, and the two that are written are not the same.
    let status = unsafe {
        library::buzorinde_read(
            WHOLE.as_ptr(),
            WHOLE.len(),
            table.as_mut_ptr(),
            table.len(),
            answer.as_mut_ptr(),
            answer.len(),
        )
    };
    (status, table, answer)
}

#[test]
fn too_short_an_answer_is_told_by_the_status() {
    for words in [0, 6] {
        assert_eq!(call(20, words), (1, vec![HELD; 20], vec![HELD; words]));
    }
}

#[test]
fn an_answer_lies_over_the_first_seven_words() {
    let end = WHOLE.len() as u32;
    let accepted = [0, 0, 0, 5, end, 0, 2];
    let refused = [13, 0, 0, 0, end, 0, 0];
    assert_eq!(
        call(20, READ_WORDS),
        (0, WHOLE_TABLE.to_vec(), accepted.to_vec())
    );
    assert_eq!(
        call(21, 9),
        (
            0,
            [&WHOLE_TABLE[..], &[HELD]].concat(),
            [&accepted[..], &[HELD, HELD]].concat()
        )
    );
    assert_eq!(
        call(0, 9),
        (0, vec![], [&refused[..], &[HELD, HELD]].concat())
    );
}
