//! One run of the program, watched: killed by a signal, over time, a wrong form, or another text than the reader's.

use std::fmt;
use std::io::{Read, Write};
use std::os::unix::process::ExitStatusExt;
use std::path::Path;
use std::process::{Child, ChildStdin, Command, ExitStatus, Stdio};
use std::thread;
use std::time::{Duration, Instant};

use crate::house;

/// A run that takes longer is a time-out.
pub const LIMIT: Duration = Duration::from_secs(2);

/// Far more than the longest answer; a program that prints on is left standing, and so times out.
const MOST_TEXT: u64 = 1 << 20;

#[derive(Debug)]
pub enum Fault {
    NotRun(String),
    Killed(i32),
    TimedOut,
    Form(String),
    Differs { expected: String, got: String },
}

impl fmt::Display for Fault {
    fn fmt(&self, to: &mut fmt::Formatter) -> fmt::Result {
        match self {
            Fault::NotRun(error) => write!(to, "can't be run: {error}"),
            Fault::Killed(signal) => write!(to, "killed by signal {signal}"),
            Fault::TimedOut => write!(to, "still running after {} seconds", LIMIT.as_secs()),
            Fault::Form(line) => write!(to, "neither `refused N` nor three numbers: {line:?}"),
            Fault::Differs { expected, got } => {
                write!(
                    to,
                    "the reader prints\n{expected}but the program prints\n{got}"
                )
            }
        }
    }
}

/// What the program prints for this input, which is handed over in pieces of these lengths and a last one.
pub fn check(program: &Path, input: &[u8], pieces: &[usize]) -> Result<String, Fault> {
    let got = printed(program, input, pieces)?;
    if let Some(line) = got.lines().find(|line| !has_form(&got, line)) {
        return Err(Fault::Form(line.into()));
    }
    let expected = house::run(input);
    match got == expected {
        true => Ok(got),
        false => Err(Fault::Differs { expected, got }),
    }
}

/// "code, result and reads for each question, single spaces, one line each; or only `refused` and the number".
fn has_form(text: &str, line: &str) -> bool {
    let is_number = |word: &str| !word.is_empty() && word.bytes().all(|byte| byte.is_ascii_digit());
    let words: Vec<&str> = line.split(' ').collect();
    match words[..] {
        ["refused", number] => is_number(number) && text.lines().count() == 1,
        [code, result, reads] => [code, result, reads].into_iter().all(is_number),
        _ => false,
    }
}

fn printed(program: &Path, input: &[u8], pieces: &[usize]) -> Result<String, Fault> {
    let not_run = |error: std::io::Error| Fault::NotRun(error.to_string());
    let mut child = Command::new(program)
        .stdin(Stdio::piped())
        .stdout(Stdio::piped())
        .stderr(Stdio::null())
        .spawn()
        .map_err(not_run)?;
    let stdin = child.stdin.take().expect("a piped standard input");
    let stdout = child
        .stdout
        .take()
        .expect("a piped standard output")
        .take(MOST_TEXT);
    thread::scope(|scope| {
        scope.spawn(|| hand_over(stdin, input, pieces));
        let reader = scope.spawn(move || std::io::read_to_string(stdout));
        let status = wait(&mut child)?;
        if let Some(signal) = status.signal() {
            return Err(Fault::Killed(signal));
        }
        let text = reader.join().expect("a reader that doesn't panic");
        text.map_err(|error| Fault::Form(error.to_string()))
    })
}

/// A program that has seen too much may stop reading, so a failure to write is none.
fn hand_over(mut stdin: ChildStdin, input: &[u8], pieces: &[usize]) {
    let mut rest = input;
    for &piece in pieces {
        let (now, later) = rest.split_at(piece.min(rest.len()));
        if stdin.write_all(now).is_err() {
            return;
        }
        thread::yield_now();
        rest = later;
    }
    let _ = stdin.write_all(rest);
}

fn wait(child: &mut Child) -> Result<ExitStatus, Fault> {
    let started = Instant::now();
    loop {
        match child.try_wait() {
            Ok(Some(status)) => return Ok(status),
            Err(error) => return Err(Fault::NotRun(error.to_string())),
            Ok(None) if started.elapsed() > LIMIT => {
                let _ = child.kill();
                let _ = child.wait();
                return Err(Fault::TimedOut);
            }
            Ok(None) => thread::sleep(Duration::from_micros(100)),
        }
    }
}

#[cfg(test)]
mod tests {
    use super::*;

    #[test]
    fn forms() {
        for text in ["", "refused 31\n", "0 3 0\n16 0 0\n"] {
            assert!(text.lines().all(|line| has_form(text, line)), "{text:?}");
        }
        for text in [
            "\n",
            "refused\n",
            "refused 31\n0 3 0\n",
            "0 3\n",
            "0  3 0\n",
            "0 -3 0\n",
            "0 3 0 \n",
        ] {
            assert!(!text.lines().all(|line| has_form(text, line)), "{text:?}");
        }
    }

    /// Programs that every system has stand in for faulty ones.
    #[test]
    fn faults_are_seen() {
        let of = |program: &str| check(Path::new(program), &[1, 2], &[1]);
        assert!(matches!(of("/bin/true"), Err(Fault::Differs { .. })));
        assert!(matches!(of("/bin/pwd"), Err(Fault::Form(_))));
        assert!(matches!(of("/no/such/program"), Err(Fault::NotRun(_))));
        assert!(matches!(of("/usr/bin/yes"), Err(Fault::TimedOut)));
    }
}
