//! Runs a program and the oracle on files from seeds, and compares what they print.
//!
//!     compare PROGRAM ORACLE FIRST COUNT
//!
//! The status is 1 at the first difference, which is shown; 1 too where the files did not come to
//! every refusal, place and limit that a file can come to, which some 3,000 in a row do; else 0.

#[allow(dead_code)] // the largest file is not asked for here
#[path = "../generator/mod.rs"]
mod generator;
#[path = "../limits.rs"]
mod limits;
#[path = "../tally.rs"]
mod tally;

use std::env;
use std::error::Error;
use std::io::{self, Read, Write};
use std::process::{Command, ExitCode, Stdio};
use std::thread::sleep;
use std::time::{Duration, Instant};

use generator::{Sample, sample};
use tally::{Tally, check_sums};

/// A run that takes longer is stopped, and counts as a difference.
const SECONDS: &str = "10";
/// No page comes near this; what is printed beyond it is not read.
const MOST_PRINTED: u64 = 1_000_000;

/// What a program printed, and how it ended (124 if it was stopped).
#[derive(PartialEq)]
struct Answer {
    status: Option<i32>,
    printed: Vec<u8>,
}

/// Gives a program the file through a pipe, all at once or in two pieces.
fn ask(mut program: Command, file: &[u8], in_pieces: bool) -> io::Result<Answer> {
    let mut child =
        program.stdin(Stdio::piped()).stdout(Stdio::piped()).stderr(Stdio::null()).spawn()?;
    let (first, second) = file.split_at(if in_pieces { file.len() / 2 } else { 0 });
    let mut printed = Vec::new();
    if let (Some(mut stdin), Some(stdout)) = (child.stdin.take(), child.stdout.take()) {
        // A program may stop reading where it knows its answer: a broken pipe is no difference.
        let _ = stdin.write_all(first);
        if in_pieces {
            sleep(Duration::from_millis(2));
        }
        let _ = stdin.write_all(second);
        drop(stdin);
        stdout.take(MOST_PRINTED).read_to_end(&mut printed)?;
    }
    Ok(Answer { status: child.wait()?.code(), printed })
}

fn with_limit(program: &str) -> Command {
    let mut limited = Command::new("timeout");
    limited.args([SECONDS, program]);
    limited
}

fn how_it_ended(status: Option<i32>) -> String {
    match status {
        Some(124) => format!("status 124 (stopped after {SECONDS} seconds)"),
        Some(status) => format!("status {status}"),
        None => String::from("a signal"),
    }
}

/// What is wrong with the program's answer, if anything is.
fn difference(answer: &Answer, expected: &Answer) -> Option<String> {
    if answer.status != expected.status {
        let [ended, should] = [answer, expected].map(|it| how_it_ended(it.status));
        return Some(format!("ended with {ended}, and the oracle with {should}"));
    }
    let lines = |answer: &Answer| -> Vec<String> {
        let text = String::from_utf8_lossy(&answer.printed).into_owned();
        text.split_inclusive('\n').map(str::to_owned).collect()
    };
    if answer.printed != expected.printed {
        let (printed, should) = (lines(answer), lines(expected));
        let line = (0..).find(|line| printed.get(*line) != should.get(*line)).unwrap_or(0);
        return Some(format!(
            "line {} is {:?}, and the oracle's is {:?}",
            line + 1,
            printed.get(line).map_or("", String::as_str),
            should.get(line).map_or("", String::as_str)
        ));
    }
    check_sums(&String::from_utf8_lossy(&answer.printed)).err()
}

/// Keeps the file, and shows the difference and the head of the file.
fn show(seed: u64, sample: &Sample, difference: &str) -> io::Result<()> {
    let name = format!("independent-{}-{seed}.txt", std::process::id());
    let path = env::temp_dir().join(name);
    std::fs::write(&path, &sample.bytes)?;
    let mut out = io::stdout().lock();
    writeln!(out, "difference at seed {seed} ({}): {difference}", sample.recipe)?;
    writeln!(out, "the file has {} bytes and is kept in {}", sample.bytes.len(), path.display())?;
    for line in sample.bytes.split_inclusive(|byte| *byte == b'\n').take(40) {
        let shown = line.escape_ascii().to_string();
        writeln!(out, "    {}", shown.chars().take(160).collect::<String>())?;
    }
    Ok(())
}

/// Whether all files of these seeds have the same answer, and come to all that a file can.
fn compare(program: &str, oracle: &str, first: u64, count: u64) -> io::Result<bool> {
    let start = Instant::now();
    let mut tally = Tally::default();
    for seed in first..first + count {
        let sample = sample(seed);
        let in_pieces = seed / 12 % 7 == 0;
        let expected = ask(Command::new(oracle), &sample.bytes, false)?;
        let answer = ask(with_limit(program), &sample.bytes, in_pieces)?;
        if let Some(difference) = difference(&answer, &expected) {
            show(seed, &sample, &difference)?;
            writeln!(io::stdout(), "found at file {} of {count}", seed - first + 1)?;
            return Ok(false);
        }
        tally.add(&sample.bytes, &String::from_utf8_lossy(&answer.printed));
    }
    let speed = count as f64 / start.elapsed().as_secs_f64();
    let all = format!("{count} files compared, from seed {first}: no difference");
    writeln!(io::stdout(), "{tally}{all} ({speed:.0} files a second)")?;
    Ok(tally.missed().is_empty())
}

fn run(arguments: &[String]) -> Result<bool, Box<dyn Error>> {
    let [program, oracle, first, count] = arguments else {
        return Err("usage: compare PROGRAM ORACLE FIRST COUNT".into());
    };
    Ok(compare(program, oracle, first.parse()?, count.parse()?)?)
}

fn main() -> ExitCode {
    let arguments: Vec<String> = env::args().skip(1).collect();
    match run(&arguments) {
        Ok(true) => ExitCode::SUCCESS,
        Ok(false) => ExitCode::FAILURE,
        Err(error) => {
            eprintln!("{error}");
            ExitCode::from(2)
        }
    }
}
