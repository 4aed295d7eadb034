//! A second reading of docs/: what the program `carbon` has to print for a portfolio file, worked
//! out by a program that shares no code with it.
//!
//!     oracle [page] < FILE     the page of a portfolio file, or what stopped it
//!     oracle cases             the worked cases

mod book;
mod cases;
mod faults;
mod file;
mod page;
mod rules;
mod sources;
mod units;

use std::env;
use std::io::{self, Read, Write};
use std::process::ExitCode;

/// What is printed for the bytes of a file, whatever they are.
fn answer(bytes: &[u8]) -> String {
    match file::read(bytes).and_then(|portfolio| file::enter(&portfolio)) {
        Ok(book) => page::page(&book),
        Err(stop) => format!("{stop}\n"),
    }
}

fn print_page() -> io::Result<()> {
    let mut bytes = Vec::new();
    io::stdin().read_to_end(&mut bytes)?;
    io::stdout().write_all(answer(&bytes).as_bytes())
}

fn print_cases() -> io::Result<()> {
    let lines: String = cases::all().iter().map(|line| format!("{line}\n")).collect();
    io::stdout().write_all(lines.as_bytes())
}

fn main() -> ExitCode {
    let arguments: Vec<String> = env::args().skip(1).collect();
    let arguments: Vec<&str> = arguments.iter().map(String::as_str).collect();
    let done = match arguments[..] {
        [] | ["page"] => print_page(),
        ["cases"] => print_cases(),
        _ => {
            eprintln!("usage: oracle [page | cases]");
            return ExitCode::from(2);
        }
    };
    if done.is_ok() { ExitCode::SUCCESS } else { ExitCode::FAILURE }
}
