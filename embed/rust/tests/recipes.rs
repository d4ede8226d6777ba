//! The texts in examples/ read as the jobs beside them, and the pages about texts say what the library answers.

use buzorinde::{read, run, Read, MOST_TABLE_WORDS, ROW_WORDS, VARIABLES};
use std::collections::BTreeSet;
use std::fs;
use std::path::{Path, PathBuf};

fn repository() -> PathBuf {
    Path::new(env!("CARGO_MANIFEST_DIR")).join("../..")
}

fn file(path: impl AsRef<Path>) -> String {
    let path = repository().join(path);
    fs::read_to_string(&path).unwrap_or_else(|error| panic!("{}: {error}", path.display()))
}

/// Every job and every text in examples/, without what follows the dot.
fn examples() -> BTreeSet<PathBuf> {
    let folder = fs::read_dir(repository().join("examples")).expect("the examples");
    let files = folder.map(|entry| entry.expect("a file").path());
    let asked = |path: &PathBuf| {
        let kind = path.extension();
        kind.is_some_and(|kind| kind == "job" || kind == "recipe")
    };
    files
        .filter(asked)
        .map(|path| path.with_extension(""))
        .collect()
}

/// The marks and the rows that a text reads as, in the lines that a job has for them.
fn lines_of(text: &str) -> Vec<String> {
    let mut table = [0; MOST_TABLE_WORDS];
    let Read::Recipe { rows, marks } = read(text.as_bytes(), &mut table).read else {
        panic!("refused: {text}")
    };
    let head = [format!("levels={marks}"), format!("rows={rows}")];
    let rows = table.chunks(ROW_WORDS).take(rows as usize);
    let rows = rows.map(|row| format!("row={},{},{},{}", row[0], row[1], row[2], row[3]));
    head.into_iter().chain(rows).collect()
}

#[test]
fn each_text_reads_as_its_job() {
    for example in examples() {
        let job = file(example.with_extension("job"));
        let of_the_recipe = |line: &&str| line.starts_with("levels=") || line.starts_with("row");
        let lines: Vec<&str> = job.lines().filter(of_the_recipe).collect();
        let text = file(example.with_extension("recipe"));
        assert_eq!(lines_of(&text), lines, "{example:?}");
    }
}

#[test]
fn each_text_is_shown_on_its_page() {
    let shown = |page: &str, text: &str| page.contains(&format!("\n```\n{text}```\n"));
    for example in examples() {
        let page = file(example.with_extension("md"));
        let text = file(example.with_extension("recipe"));
        assert!(shown(&page, &text), "{example:?}");
    }
    let interview = file("examples/cut-off-interview.recipe");
    assert!(shown(&file("docs/RECIPES.md"), &interview));
}

/// The parts of a cell that stand between backquotes.
fn quoted(cell: &str) -> Vec<&str> {
    cell.split('`').skip(1).step_by(2).collect()
}

/// A row of the table of mistakes: a text, the part that comes back and where it starts, and the text to write instead.
fn mistake(row: &str) -> (&str, (usize, &str), &str) {
    let cells: Vec<&str> = row.split(" | ").collect();
    let [written, comes_back, instead] = cells[..] else {
        panic!("three cells: {row}")
    };
    let text = quoted(written)[0];
    let part = match quoted(comes_back)[..] {
        [] => (text.len(), ""),
        [word, ..] => {
            let which = usize::from(comes_back.ends_with("the second"));
            text.match_indices(word).nth(which).expect(row)
        }
    };
    (text, part, quoted(instead).last().expect(row))
}

#[test]
fn each_common_mistake_is_refused_as_its_page_says() {
    let page = file("docs/RECIPES.md");
    let head = "\n| written | comes back | instead |\n|---|---|---|\n";
    let (_, table) = page.split_once(head).expect("the table of mistakes");
    let (rows, _) = table.split_once("\n\n").expect("its end");
    for row in rows.lines() {
        let (text, (start, part), instead) = mistake(row);
        let reading = read(text.as_bytes(), &mut []);
        let refused = Read::Refused { number: 10, row: 0 };
        assert_eq!(reading.read, refused, "{row}");
        let handed_back = (reading.start, reading.part);
        assert_eq!(handed_back, (start, part.as_bytes()), "{row}");
        lines_of(instead);
    }
}

/// The value of an expression of a and b.
fn value(expression: &str, a: u32, b: u32) -> u32 {
    let expression = expression.replace('a', "v0").replace('b', "v1");
    let text = format!("set v2 = {expression}");
    let mut table = [0; MOST_TABLE_WORDS];
    let Read::Recipe { rows, .. } = read(text.as_bytes(), &mut table).read else {
        panic!("refused: {text}")
    };
    let rows = &table[..rows as usize * ROW_WORDS];
    let mut memory = [0; VARIABLES];
    memory[..2].copy_from_slice(&[a, b]);
    run(rows, &mut memory, 0, 1, &mut []);
    memory[2]
}

#[test]
fn a_quotient_by_zero_is_what_its_page_says() {
    let page = file("docs/RECIPES.md");
    let wanted = "| a over b, but 0 where b is 0 |";
    let (_, written) = page.split_once(wanted).expect(wanted);
    let numbers = [0, 1, 5, 1000, 4294967294, 4294967295u32];
    for (a, b) in numbers.iter().flat_map(|a| numbers.map(|b| (*a, b))) {
        let quotient = a.checked_div(b);
        assert_eq!(value("(a / b)", a, b), quotient.unwrap_or(4294967295));
        assert_eq!(value(quoted(written)[0], a, b), quotient.unwrap_or(0));
    }
}
