//! The program `lineage`, run as a process on house files.

use std::io::{ErrorKind, Write};
use std::path::{Path, PathBuf};
use std::process::{Command, Stdio};

use crate::compare::{to_hex, Difference, Tally};
use crate::files::{self, Named};
use crate::house;
use crate::rng::Rng;

/// LINEAGE_PROGRAM, or where the repository's own build puts it.
pub fn path() -> PathBuf {
    match std::env::var_os("LINEAGE_PROGRAM") {
        Some(path) => PathBuf::from(path),
        None => Path::new(env!("CARGO_MANIFEST_DIR")).join("../target/bin/lineage"),
    }
}

pub fn named_files(program: &Path) -> Result<Tally, Difference> {
    let mut tally = Tally::default();
    for file in files::named() {
        tally += compare(program, &file)?;
    }
    Ok(tally)
}

pub fn random_files(
    program: &Path,
    most_bits: usize,
    count: usize,
    rng: &mut Rng,
) -> Result<Tally, Difference> {
    let mut tally = Tally::default();
    for _ in 0..count {
        tally += compare(program, &files::random(most_bits, rng))?;
    }
    Ok(tally)
}

fn compare(program: &Path, file: &Named) -> Result<Tally, Difference> {
    let expected = house::run(&file.input);
    let got = printed(program, &file.input).map_err(|error| difference(file, &expected, &error))?;
    if got != expected {
        return Err(difference(file, &expected, &got));
    }
    let asked = match expected.starts_with("refused") {
        true => 0,
        false => expected.lines().count(),
    };
    Ok(Tally {
        files: 1,
        questions: asked as u64,
        ..Tally::default()
    })
}

/// What the program writes to standard output; an error if it can't be run or is killed.
fn printed(program: &Path, input: &[u8]) -> Result<String, String> {
    let mut child = Command::new(program)
        .stdin(Stdio::piped())
        .stdout(Stdio::piped())
        .spawn()
        .map_err(|error| format!("can't start {}: {error}", program.display()))?;
    let mut stdin = child.stdin.take().expect("a piped standard input");
    match stdin.write_all(input) {
        // A program that has seen too much may stop reading.
        Err(error) if error.kind() != ErrorKind::BrokenPipe => {
            return Err(format!("can't write to the program: {error}"))
        }
        _ => drop(stdin),
    }
    let output = child.wait_with_output().map_err(|e| e.to_string())?;
    match output.status.code() {
        None => Err(format!("the program was killed: {}", output.status)),
        Some(_) => Ok(String::from_utf8_lossy(&output.stdout).into_owned()),
    }
}

fn difference(file: &Named, expected: &str, got: &str) -> Difference {
    let line = expected.lines().zip(got.lines()).position(|(e, g)| e != g);
    let at = match line {
        Some(line) => format!(
            "line {line} from 0, {:?}",
            house::question_of_line(&file.input, line)
        ),
        None => "its length".into(),
    };
    let shown = &file.input[..file.input.len().min(2_048)];
    Difference {
        what: format!("house file, printed text, {at}"),
        input: format!(
            "input: {}; {} bytes: {}",
            file.name,
            file.input.len(),
            to_hex(shown)
        ),
        expected: format!("{:?}", excerpt(expected, line)),
        got: format!("{:?}", excerpt(got, line)),
    }
}

/// The differing line, or the end where one text is the beginning of the other.
fn excerpt(text: &str, line: Option<usize>) -> String {
    match line {
        Some(line) => text.lines().nth(line).unwrap_or("").to_string(),
        None => format!(
            "{} lines, the last {:?}",
            text.lines().count(),
            text.lines().last()
        ),
    }
}
