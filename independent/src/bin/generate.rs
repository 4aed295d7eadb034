//! Writes portfolio files from seeds.
//!
//!     generate SEED                              one file, to standard output
//!     generate many FIRST COUNT DIR              files DIR/SEED.txt
//!     generate largest INVESTEES POSTS POSITIONS the file by which time is measured
//!     generate recipe SEED                       what the file of this seed was made to try

#[path = "../generator/mod.rs"]
mod generator;

use std::env;
use std::error::Error;
use std::fs;
use std::io::{self, Write};
use std::path::Path;
use std::process::ExitCode;

use generator::sample;

fn many(first: u64, count: u64, directory: &Path) -> Result<(), Box<dyn Error>> {
    fs::create_dir_all(directory)?;
    for seed in first..first + count {
        fs::write(directory.join(format!("{seed}.txt")), sample(seed).bytes)?;
    }
    Ok(())
}

fn run(arguments: &[&str]) -> Result<(), Box<dyn Error>> {
    let mut out = io::stdout();
    match arguments {
        ["many", first, count, directory] => {
            many(first.parse()?, count.parse()?, Path::new(directory))
        }
        ["largest", investees, posts, positions] => {
            let file = generator::largest(investees.parse()?, posts.parse()?, positions.parse()?);
            Ok(out.write_all(&file)?)
        }
        ["recipe", seed] => Ok(writeln!(out, "{}", sample(seed.parse()?).recipe)?),
        [seed] => Ok(out.write_all(&sample(seed.parse()?).bytes)?),
        _ => {
            Err("usage: generate SEED | many FIRST COUNT DIR | largest I P Q | recipe SEED".into())
        }
    }
}

fn main() -> ExitCode {
    let arguments: Vec<String> = env::args().skip(1).collect();
    let arguments: Vec<&str> = arguments.iter().map(String::as_str).collect();
    match run(&arguments) {
        Ok(()) => ExitCode::SUCCESS,
        Err(error) => {
            eprintln!("{error}");
            ExitCode::FAILURE
        }
    }
}
