//! The median wall time of programs on a file, in microseconds, one line each.
//!
//!     stopwatch FILE RUNS PROGRAM..
//!
//! The programs take turns, so that whatever else the machine does falls on all alike.

use std::env;
use std::error::Error;
use std::fs::File;
use std::process::{Command, ExitCode, Stdio};
use std::time::Instant;

fn microseconds(program: &str, file: &str) -> Result<u128, Box<dyn Error>> {
    let file = File::open(file)?;
    let start = Instant::now();
    let status = Command::new(program).stdin(file).stdout(Stdio::null()).status()?;
    let taken = start.elapsed().as_micros();
    if status.success() { Ok(taken) } else { Err(format!("{program} failed").into()) }
}

fn run(arguments: &[String]) -> Result<(), Box<dyn Error>> {
    let [file, runs, programs @ ..] = arguments else {
        return Err("usage: stopwatch FILE RUNS PROGRAM..".into());
    };
    let runs: usize = runs.parse()?;
    let mut times = vec![Vec::new(); programs.len()];
    for _ in 0..runs.max(1) {
        for (times, program) in times.iter_mut().zip(programs) {
            times.push(microseconds(program, file)?);
        }
    }
    for mut times in times {
        times.sort();
        println!("{}", times[times.len() / 2]);
    }
    Ok(())
}

fn main() -> ExitCode {
    let arguments: Vec<String> = env::args().skip(1).collect();
    match run(&arguments) {
        Ok(()) => ExitCode::SUCCESS,
        Err(error) => {
            eprintln!("{error}");
            ExitCode::FAILURE
        }
    }
}
