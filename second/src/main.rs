//! An independent second program for document 01, and its comparison with the library.
//! `gate`, `long SECONDS [SEED]` and `self` are its three ways of running.

mod answers;
mod calls;
mod compare;
mod damage;
mod examples;
mod face;
mod files;
mod forest;
mod house;
mod index;
mod jobs;
mod program;
mod questions;
mod rng;
mod selftest;
mod shapes;
mod walks;
mod word;
mod words;

use std::process::ExitCode;
use std::time::{Duration, Instant};

use compare::Tally;
use jobs::{Job, Report, Setting};

const USAGE: &str = "usage: second gate | long SECONDS [SEED] | self [SEED]";

/// The gate is the same run every time.
const GATE_SEED: u64 = 20_260_101;

/// Past this the gate begins no further random part.
const GATE_SECONDS: u64 = 90;

fn main() -> ExitCode {
    let words: Vec<String> = std::env::args().skip(1).collect();
    let words: Vec<&str> = words.iter().map(String::as_str).collect();
    let outcome = match words[..] {
        ["gate"] => gate(),
        ["long", seconds] => number(seconds).and_then(|s| long(s, clock_seed())),
        ["long", seconds, seed] => {
            number(seconds).and_then(|s| number(seed).and_then(|seed| long(s, seed)))
        }
        ["self"] => self_test(GATE_SEED),
        ["self", seed] => number(seed).and_then(self_test),
        _ => Err(USAGE.into()),
    };
    match outcome {
        Ok(()) => ExitCode::SUCCESS,
        Err(message) => {
            eprintln!("{message}");
            ExitCode::FAILURE
        }
    }
}

fn number(text: &str) -> Result<u64, String> {
    text.parse()
        .map_err(|_| format!("not a number: {text}\n{USAGE}"))
}

/// A seed that differs from run to run; it is printed, so the run can be had again.
fn clock_seed() -> u64 {
    let since = std::time::UNIX_EPOCH.elapsed().unwrap_or_default();
    since.as_nanos() as u64 % 1_000_000_000
}

fn self_test(seed: u64) -> Result<(), String> {
    println!("seed {seed}");
    let tally = selftest::run(seed)?;
    println!(
        "self-test passed: {} words, {} questions, each answered by forest and by walks",
        tally.words, tally.questions
    );
    Ok(())
}

fn gate() -> Result<(), String> {
    let setting = setting(GATE_SECONDS)?;
    println!("seed {GATE_SEED}");
    examples::check()?;
    let report = jobs::run(&setting, &jobs::gate(), GATE_SEED);
    finish(report)
}

fn long(seconds: u64, seed: u64) -> Result<(), String> {
    let setting = setting(seconds)?;
    println!("seed {seed}");
    examples::check()?;
    let mut whole = Tally::default();
    let mut skipped = 0;
    let mut jobs: Vec<Job> = jobs::long_once();
    jobs.extend(jobs::gate());
    for round in 0.. {
        println!("round {round}, seed {}", seed + round);
        let report = jobs::run(&setting, &jobs, seed + round);
        if report.difference.is_some() {
            return finish(report);
        }
        whole += report.tally;
        skipped += report.skipped;
        if Instant::now() > setting.deadline {
            break;
        }
        jobs = jobs::long_round();
    }
    finish(Report {
        tally: whole,
        skipped,
        difference: None,
    })
}

fn setting(seconds: u64) -> Result<Setting, String> {
    let face = face::archive().ok_or_else(|| {
        format!(
            "no archive: {} wasn't there when this was built.\n\
             Make it with `tools/build archive`, or name its folder in LINEAGE_LIB_DIR, \
             and run again. `self` needs no archive.",
            face::ARCHIVE
        )
    })?;
    let program = program::path();
    if !program.is_file() {
        return Err(format!(
            "no program: {} isn't there.\nMake it with `tools/build program`, or name it in \
             LINEAGE_PROGRAM, and run again.",
            program.display()
        ));
    }
    Ok(Setting {
        face,
        program,
        deadline: Instant::now() + Duration::from_secs(seconds),
    })
}

fn finish(report: Report) -> Result<(), String> {
    let tally = report.tally;
    println!(
        "compared: {} words, {} questions, {} damaged inputs, {} house files",
        tally.words, tally.questions, tally.damaged, tally.files
    );
    if report.skipped > 0 {
        println!("{} parts left out for time", report.skipped);
    }
    match report.difference {
        None => {
            println!("no difference");
            Ok(())
        }
        Some(difference) => Err(difference),
    }
}
