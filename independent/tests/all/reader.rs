//! The job reader: what has the required form, and which line is refused by what.

use super::*;
use independent::job::{read, report};

const JOB: &str = "budget=10\nroom=2\nlevels=2\ninputs=2\nin=7\nin=9\nrows=5\nrow=9,0,0,0\n\
                   row=5,0,0,0\nrow=9,1,0,0\nrow=5,1,2,0\nrow=2,1,3,0\n";

fn refused(job: &str) -> Option<(u32, u32)> {
    let refusal = read(job.as_bytes()).err()?;
    assert_eq!(
        report(job.as_bytes()),
        format!("refused={}\nat={}\n", refusal.number, refusal.at)
    );
    Some((refusal.number, refusal.at))
}

/// The job with one line in place of another; lines count from 1.
fn with(line: usize, changed: &str) -> String {
    let lines = JOB.lines().enumerate();
    lines
        .map(|(at, old)| if at + 1 == line { changed } else { old })
        .map(|line| format!("{line}\n"))
        .collect()
}

#[test]
fn accepted() {
    let job = read(JOB.as_bytes()).expect("the whole case has the form");
    assert_eq!((job.budget, job.room, job.levels), (10, 2, 2));
    assert_eq!(job.memory, inputs(&[7, 9]).memory);
    assert_eq!(job.words.len(), 20);
}

#[test]
fn missing_lines() {
    let lines: Vec<&str> = JOB.split_inclusive('\n').collect();
    for count in 0..lines.len() {
        let kept = lines[..count].concat();
        let at = count as u32 + 1;
        assert_eq!(refused(&kept), Some((7, at)));
        assert_eq!(refused(&(kept.clone() + "b")), Some((7, at)));
        assert_eq!(refused(&(kept + lines[count].trim_end())), Some((7, at)));
        // Where the next line has the same key, the last one is missed.
        let without = [&lines[..count], &lines[count + 1..]].concat().concat();
        let at = match count {
            4 | 5 => 6,
            7.. => 12,
            _ => at,
        };
        assert_eq!(refused(&without), Some((7, at)));
    }
}

#[test]
fn further_lines() {
    for more in ["\n", "x\n", "x", "row=0,0,0,0\n", "\0", " ", "\r\n"] {
        assert_eq!(refused(&(JOB.to_string() + more)), Some((7, 13)));
    }
}

#[test]
fn forms() {
    for value in [
        "", "x", "+1", "-1", " 1", "1 ", "1\r", "1\0", "00", "01", "1,", "1,1", "1_0",
    ] {
        for (line, key) in [
            (1, "budget"),
            (2, "room"),
            (3, "levels"),
            (4, "inputs"),
            (5, "in"),
        ] {
            let job = with(line, &format!("{key}={value}"));
            assert_eq!(refused(&job), Some((7, line as u32)), "{key}={value:?}");
        }
        assert_eq!(refused(&with(7, &format!("rows={value}"))), Some((7, 7)));
        let row = format!("row=9,{value},0,0");
        assert_eq!(refused(&with(8, &row)), Some((7, 8)), "{row:?}");
    }
    for row in [
        "row=9,0,0",
        "row=9,0,0,0,0",
        "row=",
        "row=9,,0,0",
        "row=9;0;0;0",
        "Row=9,0,0,0",
    ] {
        assert_eq!(refused(&with(8, row)), Some((7, 8)), "{row}");
    }
    assert_eq!(refused(&JOB.replace('\n', "\r\n")), Some((7, 1)));
    assert_eq!(refused(""), Some((7, 1)));
    assert_eq!(refused("\n"), Some((7, 1)));
}

#[test]
fn ranges() {
    let nines = "9".repeat(100);
    for over in ["4294967296", "18446744073709551616", &nines] {
        for (line, key) in [
            (1, "budget"),
            (2, "room"),
            (3, "levels"),
            (4, "inputs"),
            (6, "in"),
        ] {
            assert_eq!(
                refused(&with(line, &format!("{key}={over}"))),
                Some((8, line as u32))
            );
        }
        assert_eq!(refused(&with(7, &format!("rows={over}"))), Some((8, 7)));
        assert_eq!(
            refused(&with(12, &format!("row=2,1,3,{over}"))),
            Some((8, 12))
        );
    }
    for (line, key) in [(1, "budget"), (3, "levels"), (5, "in")] {
        assert_eq!(refused(&with(line, &format!("{key}=4294967295"))), None);
        assert_eq!(refused(&with(line, &format!("{key}=0"))), None);
    }
    assert_eq!(refused(&with(2, "room=8192")), None);
    assert_eq!(refused(&with(2, "room=8193")), Some((8, 2)));
    assert_eq!(refused(&with(4, "inputs=33")), Some((8, 4)));
    assert_eq!(refused(&with(7, "rows=513")), Some((8, 7)));
    assert_eq!(refused(&with(7, "rows=512")), Some((7, 13)));
    assert_eq!(refused(&with(4, "inputs=32")), Some((7, 7)));
    assert_eq!(refused(&with(8, "row=8,4294967295,0,0")), None);
}

/// "the first faulty line, 7 before 8"
#[test]
fn order() {
    let over_then_form = with(1, "budget=4294967296").replace("in=7", "in=x");
    assert_eq!(refused(&over_then_form), Some((8, 1)));
    let form_then_over = with(1, "budget=x").replace("in=7", "in=4294967296");
    assert_eq!(refused(&form_then_over), Some((7, 1)));
    for row in [
        "row=4294967296,x,0,0",
        "row=4294967296,0,0",
        "row=4294967296,00,0,0",
    ] {
        assert_eq!(refused(&with(8, row)), Some((7, 8)), "{row}");
    }
    let unended = with(12, "row=2,1,3,4294967296");
    assert_eq!(refused(unended.trim_end()), Some((7, 12)));
}

/// "Then 1 to 5 apply."
#[test]
fn then_the_table() {
    let refused_report = |number: u32, at: u32| format!("refused={number}\nat={at}\n");
    let rows_0 = "budget=1\nroom=1\nlevels=1\ninputs=0\nrows=0\n";
    assert_eq!(report(rows_0.as_bytes()), refused_report(1, 0));
    assert_eq!(
        report(with(8, "row=6,0,0,0").as_bytes()),
        refused_report(2, 0)
    );
    assert_eq!(
        report(with(9, "row=5,0,1,0").as_bytes()),
        refused_report(3, 1)
    );
    assert_eq!(
        report(with(12, "row=2,1,1,0").as_bytes()),
        refused_report(4, 1)
    );
    let line_first = with(8, "row=6,0,0,0") + "x\n";
    assert_eq!(report(line_first.as_bytes()), refused_report(7, 13));
}

/// "Refusal 9 comes first."
#[test]
fn bytes() {
    let digits = |bytes: usize| with(1, &format!("budget={}", "1".repeat(bytes - JOB.len() + 2)));
    assert_eq!(digits(32_768).len(), 32_768);
    assert_eq!(refused(&digits(32_768)), Some((8, 1)));
    assert_eq!(refused(&digits(32_769)), Some((9, 0)));
    assert_eq!(refused(&"x".repeat(32_768)), Some((7, 1)));
    assert_eq!(refused(&"x".repeat(32_769)), Some((9, 0)));
}
