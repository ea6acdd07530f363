//! Many runs, until the time is up: what was printed is counted, and files that the program fails on are kept.

use std::collections::BTreeMap;
use std::fs;
use std::path::Path;
use std::time::{Duration, Instant};

use crate::damage;
use crate::rng::Rng;
use crate::watch::{self, Fault};

/// So many failures are enough to look at.
const ENOUGH: usize = 20;

#[derive(Default)]
struct Count {
    files: u64,
    answers: u64,
    refusals: BTreeMap<String, u64>,
    faults: usize,
    slowest: Duration,
}

pub fn run(program: &Path, seconds: u64, seed: u64, folder: &Path) -> Result<(), String> {
    fs::create_dir_all(folder).map_err(|error| error.to_string())?;
    println!("damaged files for {seconds} seconds, seed {seed}");
    let deadline = Instant::now() + Duration::from_secs(seconds);
    let mut rng = Rng::new(seed);
    let mut count = Count::default();
    while Instant::now() < deadline && count.faults < ENOUGH {
        let (input, pieces) = damage::draw(&mut rng);
        let started = Instant::now();
        let outcome = watch::check(program, &input, &pieces);
        count.slowest = count.slowest.max(started.elapsed());
        count.files += 1;
        match outcome {
            Ok(printed) => count.take(&printed),
            Err(fault) => count.keep(&fault, &input, folder)?,
        }
    }
    count.report(folder)
}

impl Count {
    fn take(&mut self, printed: &str) {
        match printed.starts_with("refused") {
            true => *self.refusals.entry(printed.trim().into()).or_default() += 1,
            false => self.answers += printed.lines().count() as u64,
        }
    }

    fn keep(&mut self, fault: &Fault, input: &[u8], folder: &Path) -> Result<(), String> {
        if let Fault::NotRun(_) = fault {
            return Err(format!("the program {fault}"));
        }
        self.faults += 1;
        let name = folder.join(format!("{:02}", self.faults));
        let written = fs::write(name.with_extension("house"), input)
            .and_then(|()| fs::write(name.with_extension("txt"), fault.to_string()));
        println!(
            "{}.house: {}",
            name.display(),
            fault.to_string().lines().next().unwrap_or("")
        );
        written.map_err(|error| error.to_string())
    }

    fn report(&self, folder: &Path) -> Result<(), String> {
        let refused: u64 = self.refusals.values().sum();
        println!(
            "{} files: {} answered with {} lines, {} refused; the slowest took {} ms",
            self.files,
            self.files - refused - self.faults as u64,
            self.answers,
            refused,
            self.slowest.as_millis()
        );
        for (line, times) in &self.refusals {
            println!("  {line}: {times}");
        }
        match self.faults {
            0 => Ok(()),
            faults => Err(format!("{faults} files failed; see {}", folder.display())),
        }
    }
}
