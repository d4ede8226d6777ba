//! The program: reads a job and prints its report, or answers what an option asks.

use std::io::{self, Read, Write};
use std::path::Path;
use std::process::ExitCode;

use independent::job::{read, refusal_lines, report, MOST_JOB_BYTES};
use independent::text::job_lines;
use independent::{case, program, vectors};

const HELP: &str = "\
usage: independent [OPTION]
With no option: read a job on standard input and print its report.
  --judge        print the judge's answer for the job's table
  --levels       print the level check's answer for the job's table and levels
  --text         read a recipe's text on standard input and print its lines of a job
  --case         read a case on standard input and print its answer
  --vectors DIR  write every vector, with its expected output, below DIR
  --program DIR  write what the program `cases` reads and must write, below DIR
  --help         print this text
";

/// Exit status of a use that the program does not know, or of a case that lacks its form.
const MISUSED: u8 = 2;
const FAILED: u8 = 1;

fn main() -> ExitCode {
    let arguments: Vec<String> = std::env::args_os()
        .skip(1)
        .map(|argument| argument.to_string_lossy().into_owned())
        .collect();
    let arguments: Vec<&str> = arguments.iter().map(String::as_str).collect();
    match answer(&arguments) {
        Ok(text) => match io::stdout().write_all(text.as_bytes()) {
            Ok(()) => ExitCode::SUCCESS,
            Err(_) => ExitCode::from(FAILED),
        },
        Err(fault) => {
            eprintln!("independent: {}", fault.message);
            ExitCode::from(fault.status)
        }
    }
}

struct Fault {
    message: String,
    status: u8,
}

impl From<io::Error> for Fault {
    fn from(error: io::Error) -> Fault {
        Fault {
            message: error.to_string(),
            status: FAILED,
        }
    }
}

fn answer(arguments: &[&str]) -> Result<String, Fault> {
    match arguments {
        [] => Ok(report(&job_input()?)),
        ["--judge"] => Ok(match read(&job_input()?) {
            Ok(job) => case::judge_answer(&job.words),
            Err(refusal) => refusal_lines(refusal),
        }),
        ["--levels"] => Ok(match read(&job_input()?) {
            Ok(job) => case::levels_answer(&job.words, job.levels),
            Err(refusal) => refusal_lines(refusal),
        }),
        ["--text"] => Ok(job_lines(&whole_input()?)),
        ["--case"] => case_answer(),
        ["--vectors", folder] => {
            vectors::write(Path::new(folder))?;
            Ok(String::new())
        }
        ["--program", folder] => {
            program::write(Path::new(folder))?;
            Ok(String::new())
        }
        ["--help"] => Ok(HELP.to_string()),
        _ => Err(Fault {
            message: format!("unknown use: {}; try --help", arguments.join(" ")),
            status: MISUSED,
        }),
    }
}

fn case_answer() -> Result<String, Fault> {
    case::answer(&whole_input()?).map_err(|fault| Fault {
        message: format!(
            "the case is refused by {} at line {}",
            fault.number, fault.at
        ),
        status: MISUSED,
    })
}

fn whole_input() -> io::Result<Vec<u8>> {
    let mut input = Vec::new();
    io::stdin().read_to_end(&mut input)?;
    Ok(input)
}

/// Reads no more than is needed to know that a job is too long.
fn job_input() -> io::Result<Vec<u8>> {
    let mut input = Vec::new();
    let most = MOST_JOB_BYTES as u64 + 1;
    io::stdin().take(most).read_to_end(&mut input)?;
    Ok(input)
}
