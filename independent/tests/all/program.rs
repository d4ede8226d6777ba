//! The program's options, its exit status, and what it prints where.

use std::io::Write;
use std::process::{Command, Stdio};

const JOB: &str = "budget=10\nroom=2\nlevels=1\ninputs=0\nrows=2\nrow=9,0,0,0\nrow=5,0,0,0\n";

/// Exit status, standard output, and whether anything was said on standard error.
fn program(arguments: &[&str], input: &str) -> (Option<i32>, String, bool) {
    let mut program = Command::new(env!("CARGO_BIN_EXE_independent"))
        .args(arguments)
        .stdin(Stdio::piped())
        .stdout(Stdio::piped())
        .stderr(Stdio::piped())
        .spawn()
        .expect("the program starts");
    let mut standard_input = program.stdin.take().expect("it has an input");
    // A use that reads no input may end before this is written.
    let _ = standard_input.write_all(input.as_bytes());
    drop(standard_input);
    let output = program.wait_with_output().expect("the program ends");
    let text = String::from_utf8_lossy(&output.stdout).into_owned();
    (output.status.code(), text, !output.stderr.is_empty())
}

fn answers(arguments: &[&str], input: &str, text: &str) {
    let expected = (Some(0), text.to_string(), false);
    assert_eq!(program(arguments, input), expected);
}

#[test]
fn report() {
    let zeros = ["0"; 32].join(",");
    let denied = format!(
        "verdict=1\nplace=1\nbecause=1\nsteps=0\nlevels=1\nmarked=1\nmem={zeros}\nrecords=0\n"
    );
    answers(&[], JOB, &denied);
    answers(&[], "", "refused=7\nat=1\n");
    answers(&[], &"9".repeat(100_000), "refused=9\nat=0\n");
}

#[test]
fn judge() {
    answers(&["--judge"], JOB, "refused=0\nat=0\n");
    let shared = JOB.replace("row=5,0,0,0", "row=10,0,0,0");
    answers(&["--judge"], &shared, "refused=4\nat=0\n");
    answers(&["--judge"], "x", "refused=7\nat=1\n");
}

#[test]
fn levels() {
    answers(&["--levels"], JOB, "failed=1\nat=1\nlevels=1\n");
    let none = JOB.replace("levels=1", "levels=2");
    answers(&["--levels"], &none, "failed=0\nat=0\nlevels=2\n");
    let unknown = JOB.replace("row=9", "row=7");
    answers(&["--levels"], &unknown, "refused=2\nat=0\nlevels=1\n");
}

#[test]
fn case() {
    let operator = "ask=operator\noperator=1\nleft=0\nright=1\n";
    answers(&["--case"], operator, "value=4294967295\n");
    let unknown = "ask=operator\noperator=6\nleft=0\nright=1\n";
    answers(&["--case"], unknown, "value=1\n");
    let marks = "ask=marks\nlevels=5\nvariable=33\nothers=9\n";
    let told = "only=2\nhas=0\nwith=7\nwithout=5\njoined=13\n";
    answers(&["--case"], marks, told);
    let marked = "ask=marks\nlevels=5\nvariable=2\nothers=0\n";
    let told = "only=4\nhas=1\nwith=5\nwithout=1\njoined=5\n";
    answers(&["--case"], marked, told);
    let judge = "ask=judge\ncount=0\nwords=\n";
    answers(&["--case"], judge, "refused=1\nat=0\n");
}

#[test]
fn case_of_rows() {
    let memory = format!("mem=7{}", ",0".repeat(31));
    let asked = format!("{memory}\nlevels=1\nasked=2\nrows=0,1\n");
    let accepted = format!("ask=rows\ncount=8\nwords=9,0,0,0,1,3,0,0\n{asked}");
    let variable = "has=1\nrow=9,0,0,0\nvalue=7\nlevel=1\nassigned=0\n";
    let assignment = "has=1\nrow=1,3,0,0\nvalue=0\nlevel=0\nassigned=8\n";
    answers(&["--case"], &accepted, &(variable.to_string() + assignment));
    let unknown = format!("ask=rows\ncount=4\nwords=6,1,2,3\n{asked}");
    let refused = "refused=2\nat=0\nrefused=2\nat=0\n";
    let told = format!("has=1\nrow=11,1,2,3\n{refused}has=0\nrow=11,0,0,0\n{refused}");
    answers(&["--case"], &unknown, &told);
}

#[test]
fn case_of_a_text() {
    let asked = "ask=text\nlent=9\ntable=1,2,3,4,5,6,7,8,9\nlength=12\nsettled\nv7\n\n";
    let read = "refused=0\nat=0\nrows=2\nlevels=0\nstart=12\nlength=0\n";
    let table = "lent=9\ntable=9,7,0,0,5,0,0,0,9\n";
    answers(&["--case"], asked, &(read.to_string() + table));
    let asked = "ask=text\nlent=1\ntable=5\nlength=3\nend";
    let refused = "refused=10\nat=0\nrows=0\nlevels=0\nstart=0\nlength=3\n";
    let table = "lent=1\ntable=5\n";
    answers(&["--case"], asked, &(refused.to_string() + table));
    let asked = "ask=text\nlent=0\ntable=\nlength=0\n";
    let refused = "refused=10\nat=0\nrows=0\nlevels=0\nstart=0\nlength=0\nlent=0\ntable=\n";
    answers(&["--case"], asked, refused);
}

#[test]
fn text() {
    let rows = "levels=2\nrows=2\nrow=9,1,0,0\nrow=5,1,0,0\n";
    answers(&["--text"], "in v1 provisional;\nprovisional v1\n", rows);
    let again = "refused=11\nat=0\nstart=10\nlength=2\n";
    answers(&["--text"], "in v1; in v1; skip", again);
    let long = "refused=9\nat=0\nstart=40000\nlength=0\n";
    answers(&["--text"], &" ".repeat(40_000), long);
}

#[test]
fn misused() {
    for arguments in [
        &["--unknown"][..],
        &["job"],
        &["--judge", "x"],
        &["--vectors"],
    ] {
        let (status, text, told) = program(arguments, JOB);
        assert_eq!((status, text.as_str(), told), (Some(2), "", true));
    }
    for case in [
        "",
        "ask=x\n",
        "ask=operator\noperator=x\nleft=0\nright=1\n",
        "ask=text\nlent=0\ntable=\nlength=5\nskip",
        "ask=text\nlent=0\ntable=\nlength=3\nskip",
    ] {
        let (status, text, told) = program(&["--case"], case);
        assert_eq!((status, text.as_str(), told), (Some(2), "", true));
    }
}

#[test]
fn help() {
    let (status, text, told) = program(&["--help"], "");
    assert_eq!((status, told), (Some(0), false));
    assert!(text.starts_with("usage: independent"));
}
