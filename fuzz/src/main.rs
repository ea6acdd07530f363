//! Rough handling of the program `lineage`: it is run on damaged house files, each in a process of its own.
//! What it prints must have the form that document 01 gives, and be what the second program's reader prints.

mod damage;
mod many;
mod second;
mod watch;

// Its files name each other from the root.
use second::{answers, files, forest, house, index, questions, rng, shapes, walks, word};

use std::io::{self, Read, Write};
use std::path::Path;
use std::process::ExitCode;

const USAGE: &str = "usage:
  fuzz many PROGRAM SECONDS SEED FOLDER   runs PROGRAM on damaged files; those it fails on are kept in FOLDER
  fuzz one PROGRAM                        runs PROGRAM on standard input; aborts if it fails, as AFL++ wants it
  fuzz seeds FOLDER                       writes sound files to begin from
  fuzz print                              prints what the second program's reader says of standard input";

fn main() -> ExitCode {
    let words: Vec<String> = std::env::args().skip(1).collect();
    let words: Vec<&str> = words.iter().map(String::as_str).collect();
    let outcome = match words[..] {
        ["many", program, seconds, seed, folder] => match (seconds.parse(), seed.parse()) {
            (Ok(seconds), Ok(seed)) => {
                many::run(Path::new(program), seconds, seed, Path::new(folder))
            }
            _ => Err(USAGE.into()),
        },
        ["one", program] => one(Path::new(program)),
        ["seeds", folder] => {
            damage::write_seeds(Path::new(folder)).map_err(|error| error.to_string())
        }
        ["print"] => print(),
        _ => Err(USAGE.into()),
    };
    match outcome {
        Ok(()) => ExitCode::SUCCESS,
        Err(message) => {
            eprintln!("{message}");
            ExitCode::FAILURE
        }
    }
}

fn standard_input() -> Result<Vec<u8>, String> {
    let mut input = Vec::new();
    io::stdin()
        .read_to_end(&mut input)
        .map_err(|error| error.to_string())?;
    Ok(input)
}

fn one(program: &Path) -> Result<(), String> {
    let input = standard_input()?;
    if let Err(fault) = watch::check(program, &input, &[]) {
        eprintln!("{fault}");
        std::process::abort();
    }
    Ok(())
}

fn print() -> Result<(), String> {
    let printed = house::run(&standard_input()?);
    io::stdout()
        .write_all(printed.as_bytes())
        .map_err(|error| error.to_string())
}
