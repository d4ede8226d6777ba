//! Vectors of the job reader: lines missing, repeated, damaged, out of range; bytes.

use super::{Setting, Vector, WHOLE_CASE};
use crate::recipes::skip;

/// The first line of each key.
const KEYS: [(&str, usize); 7] = [
    ("budget", 0),
    ("room", 1),
    ("levels", 2),
    ("inputs", 3),
    ("in", 4),
    ("rows", 6),
    ("row", 7),
];

const HUNDRED: usize = 100;

pub fn vectors() -> Vec<Vector> {
    let mut vectors = damaged_lines();
    vectors.extend(cut_jobs());
    vectors.extend(counts());
    vectors.extend(two_faults());
    vectors.extend(tables());
    vectors.extend(ends());
    vectors.extend(bytes());
    vectors.extend(sizes());
    vectors
}

fn whole() -> Vec<String> {
    WHOLE_CASE.iter().map(|line| line.to_string()).collect()
}

fn text(lines: &[String]) -> String {
    lines.iter().map(|line| format!("{line}\n")).collect()
}

/// The whole case with some lines changed; lines count from 1.
fn with(changes: &[(usize, &str)]) -> String {
    let mut lines = whole();
    for (line, changed) in changes {
        lines[line - 1] = changed.to_string();
    }
    text(&lines)
}

/// Every kind of line: missing, repeated, and in every damaged form.
fn damaged_lines() -> Vec<Vector> {
    let mut vectors = Vec::new();
    for (key, at) in KEYS {
        let mut missing = whole();
        missing.remove(at);
        vectors.push(Vector::job(&format!("line-{key}-missing"), text(&missing)));
        let mut repeated = whole();
        repeated.insert(at, WHOLE_CASE[at].to_string());
        vectors.push(Vector::job(
            &format!("line-{key}-repeated"),
            text(&repeated),
        ));
        for (damage, damaged) in damages(key, WHOLE_CASE[at]) {
            let mut lines = whole();
            lines[at] = damaged;
            vectors.push(Vector::job(&format!("line-{key}-{damage}"), text(&lines)));
        }
    }
    vectors
}

/// The damaged forms of a line. In a row line, the damage is to the word q.
fn damages(key: &str, line: &str) -> Vec<(&'static str, String)> {
    let number = |number: &str| match key {
        "row" => format!("row=9,0,{number},0"),
        _ => format!("{key}={number}"),
    };
    vec![
        ("empty", String::new()),
        ("in-capitals", line.replacen(key, &key.to_uppercase(), 1)),
        ("with-a-longer-key", format!("{key}{line}")),
        ("with-no-equals-sign", line.replacen('=', "", 1)),
        ("with-two-equals-signs", line.replacen('=', "==", 1)),
        ("with-a-blank-before", format!(" {line}")),
        ("with-a-blank-after", format!("{line} ")),
        ("with-a-blank-inside", line.replacen('=', "= ", 1)),
        ("with-a-tab-after", format!("{line}\t")),
        ("with-a-carriage-return", format!("{line}\r")),
        ("with-a-nul-after", format!("{line}\0")),
        ("with-a-nul-inside", line.replacen('=', "=\0", 1)),
        ("with-one-number-more", format!("{line},0")),
        ("with-a-comma-after", format!("{line},")),
        ("number-empty", number("")),
        ("number-with-a-plus", number("+1")),
        ("number-with-a-minus", number("-1")),
        ("number-with-a-point", number("1.0")),
        ("number-in-hexadecimal", number("0x1")),
        ("number-with-a-letter", number("1a")),
        ("number-00", number("00")),
        ("number-01", number("01")),
        ("number-4294967295", number("4294967295")),
        ("number-4294967296", number("4294967296")),
        ("number-04294967296", number("04294967296")),
        (
            "number-18446744073709551616",
            number("18446744073709551616"),
        ),
        ("number-of-100-nines", number(&"9".repeat(HUNDRED))),
        ("number-of-100-zeros", number(&"0".repeat(HUNDRED))),
    ]
}

/// "a missing line is 7 at the number it would have"; "a last line without LF is 7"
fn cut_jobs() -> Vec<Vector> {
    let mut vectors = Vec::new();
    for (count, next) in WHOLE_CASE.iter().enumerate() {
        let kept = text(&whole()[..count]);
        let inside = kept.clone() + &next[..3];
        let without_end = kept.clone() + next;
        let line = count + 1;
        vectors.push(Vector::job(&format!("cut-before-line-{line}"), kept));
        vectors.push(Vector::job(&format!("cut-inside-line-{line}"), inside));
        let name = format!("cut-before-the-end-of-line-{line}");
        vectors.push(Vector::job(&name, without_end));
    }
    vectors
}

/// Numbers that count lines, at and over their limits, and wrong for the lines that follow.
fn counts() -> Vec<Vector> {
    let skipped = Setting::of(&skip());
    let many = vec![4294967295; 32];
    let row_missing = skipped.job_text().replace("rows=1", "rows=2");
    let row_more = skipped.job_text() + "row=0,0,0,0\n";
    let no_rows = Setting::of_words(vec![]).job_text();
    let input_more = skipped.job_text().replace("rows", "in=1\nrows");
    let input_missing = skipped.job_text().replace("inputs=0", "inputs=1");
    let inputs_33 = skipped.clone().inputs(&[1; 33]).job_text();
    vec![
        Vector::job("inputs-0", skipped.job_text()),
        Vector::job("inputs-32", skipped.clone().inputs(&many).job_text()),
        Vector::job("inputs-33", inputs_33),
        Vector::job("inputs-fewer-than-said", input_missing),
        Vector::job("inputs-more-than-said", input_more),
        Vector::job("rows-0", no_rows.clone()),
        Vector::job("rows-0-and-a-row", no_rows + "row=0,0,0,0\n"),
        Vector::job("rows-513", with(&[(7, "rows=513")])),
        Vector::job("rows-512-and-five-given", with(&[(7, "rows=512")])),
        Vector::job("rows-fewer-than-said", row_missing),
        Vector::job("rows-more-than-said", row_more),
        Vector::job("room-8192", with(&[(2, "room=8192")])),
        Vector::job("room-8193", with(&[(2, "room=8193")])),
        Vector::job("room-0", with(&[(2, "room=0")])),
        Vector::job("row-of-three-numbers", with(&[(8, "row=9,0,0")])),
        Vector::job("row-of-one-number", with(&[(8, "row=9")])),
        Vector::job("row-with-blanks", with(&[(8, "row=9, 0, 0, 0")])),
        Vector::job("row-with-semicolons", with(&[(8, "row=9;0;0;0")])),
        Vector::job("row-p-out-of-range", with(&[(8, "row=9,4294967296,0,0")])),
        Vector::job("row-r-out-of-range", with(&[(8, "row=9,0,0,4294967296")])),
        Vector::job("row-k-out-of-range", with(&[(8, "row=4294967296,0,0,0")])),
    ]
}

/// "the first faulty line, 7 before 8"
fn two_faults() -> Vec<Vector> {
    let over = "row=9,4294967296";
    vec![
        Vector::job(
            "8-on-line-1-and-7-on-line-5",
            with(&[(1, "budget=4294967296"), (5, "in=x")]),
        ),
        Vector::job(
            "7-on-line-1-and-8-on-line-5",
            with(&[(1, "budget=x"), (5, "in=4294967296")]),
        ),
        Vector::job(
            "8-on-line-5-and-a-missing-line",
            text(&whole()[..9]).replace("in=7", "in=4294967296"),
        ),
        Vector::job("8-and-7-in-one-row", with(&[(8, &format!("{over},x,0"))])),
        Vector::job("7-and-8-in-one-row", with(&[(8, "row=x,4294967296,0,0")])),
        Vector::job(
            "8-in-a-row-of-three-numbers",
            with(&[(8, &format!("{over},0"))]),
        ),
        Vector::job(
            "8-in-a-row-with-a-leading-zero",
            with(&[(8, &format!("{over},00,0"))]),
        ),
        Vector::job(
            "8-in-a-row-with-a-carriage-return",
            with(&[(8, &format!("{over},0,0\r"))]),
        ),
        Vector::job(
            "8-in-a-last-line-without-its-end",
            with(&[(12, "row=2,1,3,4294967296")]).trim_end(),
        ),
    ]
}

/// "Then 1 to 5 apply."
fn tables() -> Vec<Vector> {
    vec![
        Vector::job(
            "2-in-a-row-and-7-on-a-later-line",
            with(&[(8, "row=6,0,0,0"), (12, "row=2,1,3")]),
        ),
        Vector::job(
            "2-in-a-row-and-a-further-line",
            with(&[(8, "row=6,0,0,0")]) + "row=0,0,0,0\n",
        ),
        Vector::job("2-in-a-row", with(&[(8, "row=6,0,0,0")])),
        Vector::job("3-in-a-row", with(&[(9, "row=5,0,1,0")])),
        Vector::job(
            "3-for-a-child-beyond-the-table",
            with(&[(9, "row=5,0,900,0")]),
        ),
        Vector::job("4-in-a-row", with(&[(12, "row=2,1,1,0")])),
    ]
}

/// "and then the input ends. A further line or a last line without LF is 7."
fn ends() -> Vec<Vector> {
    let whole = text(&whole());
    let further = |name: &str, more: &str| Vector::job(name, whole.clone() + more);
    vec![
        Vector::job("nothing", ""),
        Vector::job("only-a-line-end", "\n"),
        further("further-line", "x\n"),
        further("further-line-empty", "\n"),
        further("further-line-without-its-end", "x"),
        further("further-line-budget", "budget=10\n"),
        further("further-row", "row=0,0,0,0\n"),
        further("further-nul", "\0"),
        further("further-blank", " "),
        Vector::job("the-job-twice", whole.clone() + &whole),
        Vector::job("a-line-end-before", format!("\n{whole}")),
        Vector::job("last-line-without-its-end", whole.trim_end()),
        Vector::job("carriage-returns", whole.replace('\n', "\r\n")),
        Vector::job("carriage-returns-only", whole.replace('\n', "\r")),
        Vector::job("lines-in-another-order", swapped()),
    ]
}

fn swapped() -> String {
    with(&[(1, "room=2"), (2, "budget=10")])
}

/// Bytes that are no text of a job.
fn bytes() -> Vec<Vector> {
    let whole = text(&whole()).into_bytes();
    let mark = [&[0xEF, 0xBB, 0xBF], whole.as_slice()].concat();
    let mut high = whole.clone();
    high[7] = 0xB1;
    let mut wide = with(&[]).into_bytes();
    let digit_one_in_full_width = [0xEF, 0xBC, 0x91];
    wide.splice(7..8, digit_one_in_full_width);
    vec![
        Vector::job("byte-order-mark", mark),
        Vector::job("byte-177-for-a-digit", high),
        Vector::job("full-width-digit", wide),
        Vector::job("one-nul", vec![0]),
        Vector::job("all-255", vec![255; 40]),
    ]
}

/// "the job exceeds 32,768 bytes": no job that long has the required form, so 7 or 8 is
/// given at the limit, and 9 above it.
fn sizes() -> Vec<Vector> {
    let rows = vec![4294967295; 2048];
    let longest = Setting::of_words(rows).inputs(&[4294967295; 32]);
    let longest = longest.levels(u32::MAX).budget(u32::MAX).room(8192);
    let digits = |bytes: usize| {
        let rest = with(&[(1, "budget=")]);
        let digits = "9".repeat(bytes - rest.len());
        rest.replacen("budget=", &format!("budget={digits}"), 1)
    };
    let further = |bytes: usize| {
        let whole = text(&whole());
        let more = "\n".repeat(bytes - whole.len());
        whole + &more
    };
    let long_line = format!("{}{}\n", text(&whole()), " ".repeat(70_000));
    vec![
        Vector::job("longest-job-in-form", longest.job_text()),
        Vector::job("32768-bytes-of-8", digits(32_768)),
        Vector::job("32769-bytes-of-8", digits(32_769)),
        Vector::job("32768-bytes-of-7", further(32_768)),
        Vector::job("32769-bytes-of-7", further(32_769)),
        Vector::job("70000-bytes-in-a-further-line", long_line),
    ]
}
