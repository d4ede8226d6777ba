//! A job to its report, program against program: the proved `watch`, and a plain one in Rust, which is this benchmark when it is
//! asked to be.

use crate::watched;
use crate::workloads::Workload;
use buzorinde::{Ended, VARIABLES};
use std::fmt::Write as _;
use std::io::{Read, Write};
use std::process::{Command, Stdio};

/// The word that makes the benchmark the plain program.
pub const PLAIN: &str = "--job";

/// The job of a workload; every variable is 0.
pub fn text(work: &Workload) -> String {
    let rows: Vec<&[u32]> = work.table.chunks(4).collect();
    let mut text = format!(
        "budget={}\nroom={}\nlevels={}\ninputs=0\nrows={}\n",
        work.budget,
        work.trace_words / 2,
        work.marks,
        rows.len()
    );
    for row in rows {
        writeln!(text, "row={},{},{},{}", row[0], row[1], row[2], row[3])
            .expect("a string takes all");
    }
    text
}

/// What a program prints for the job.
pub fn answer(program: &mut Command, job: &str) -> Vec<u8> {
    let mut child = program
        .stdin(Stdio::piped())
        .stdout(Stdio::piped())
        .spawn()
        .expect("the program starts");
    child
        .stdin
        .take()
        .expect("a pipe")
        .write_all(job.as_bytes())
        .expect("the program reads the job");
    child.wait_with_output().expect("the program ends").stdout
}

/// The plain program: reads a job that has its form, runs it, and prints the report.
pub fn report_input() {
    let mut job = String::new();
    std::io::stdin().read_to_string(&mut job).expect("a job");
    std::io::stdout()
        .write_all(report(&job).as_bytes())
        .expect("the report is taken");
}

fn report(job: &str) -> String {
    let mut lines = job.lines();
    let mut number = |key: &str| -> u32 {
        lines
            .next()
            .and_then(|line| line.strip_prefix(key)?.parse().ok())
            .expect(key)
    };
    let (budget, room, marks) = (number("budget="), number("room="), number("levels="));
    let mut memory = [0; VARIABLES];
    for i in 0..number("inputs=") as usize {
        memory[i] = number("in=");
    }
    let rows = number("rows=") as usize;
    let mut table = Vec::with_capacity(4 * rows);
    for line in lines.take(rows) {
        let words = line.strip_prefix("row=").expect("a row").split(',');
        table.extend(words.map(|word| word.parse::<u32>().expect("a word")));
    }
    let mut trace = vec![0; 2 * room as usize];
    let answer = watched::run(&table, &mut memory, marks, budget, &mut trace);
    let (verdict, place, because) = match answer.ended {
        Ended::Done => (0, 0, 0),
        Ended::Stopped { row, because } => (1, row, because),
        Ended::Spent => (2, 0, 0),
        Ended::NoRoom(row) => (3, row, 0),
        Ended::Refused { number, row } => return format!("refused={number}\nat={row}\n"),
    };
    let mem: Vec<String> = memory.iter().map(u32::to_string).collect();
    let mut text = format!(
        "verdict={verdict}\nplace={place}\nbecause={because}\nsteps={}\nlevels={}\nmarked={}\nmem={}\nrecords={}\n",
        answer.steps,
        answer.marks,
        answer.marks.count_ones(),
        mem.join(","),
        answer.records
    );
    for record in trace.chunks(2).take(answer.records as usize) {
        writeln!(text, "out={},{}", record[0], record[1]).expect("a string takes all");
    }
    text
}
