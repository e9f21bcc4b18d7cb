//! A program compared with the model: it is run on many inputs, and what it writes is held against
//! what the model writes, byte by byte.

pub mod cards;

use crate::rng::Rng;
use std::io::{Result, Write};
use std::process::{Command, ExitCode, Stdio};

/// What a program writes to standard output and to standard error.
pub type Written = (Vec<u8>, String);

/// What a program is given: its arguments, and its standard input.
pub struct Given {
    pub arguments: Vec<String>,
    pub input: Vec<u8>,
}

impl Given {
    pub fn new(arguments: &[&str], input: Vec<u8>) -> Given {
        Given { arguments: arguments.iter().map(|word| word.to_string()).collect(), input }
    }
}

/// Byte by byte the same.
pub fn is_equal(expected: &Written, got: &Written) -> bool {
    expected == got
}

/// The inputs of a program, and what the model writes for each.
pub struct Comparison {
    pub program: &'static str,
    /// Runs that are always made, before the random ones.
    pub first: fn(&mut Rng) -> Vec<Given>,
    pub random: fn(&mut Rng) -> Given,
    pub expected: fn(&Given) -> Written,
    /// Has the program written what is expected?
    pub is_same: fn(&Written, &Written) -> bool,
    /// Prints what was given, what the model writes for it, and what the program wrote instead.
    pub report: fn(&Given, &Written, &Written),
}

/// What the program writes for what it is given, or how it failed to end.
fn run(path: &str, given: &Given) -> Result<Written> {
    let mut child = Command::new(path)
        .args(&given.arguments)
        .stdin(Stdio::piped())
        .stdout(Stdio::piped())
        .stderr(Stdio::piped())
        .spawn()?;
    let mut pipe = child.stdin.take().expect("a piped input");
    let bytes = given.input.clone();
    // A program may end before it has read everything: a failed write is no fault.
    let writer = std::thread::spawn(move || pipe.write_all(&bytes).is_ok());
    let output = child.wait_with_output()?;
    let _ = writer.join();
    if output.status.code().is_none() {
        return Ok((Vec::new(), format!("ended by a signal: {}", output.status)));
    }
    Ok((output.stdout, String::from_utf8_lossy(&output.stderr).into_owned()))
}

/// Path, seed and count.
fn arguments() -> Option<(String, u64, usize)> {
    let mut arguments = std::env::args().skip(1);
    let path = arguments.next()?;
    let seed = arguments.next()?.parse().ok()?;
    let count = arguments.next()?.parse().ok()?;
    if arguments.next().is_some() {
        return None;
    }
    Some((path, seed, count))
}

impl Comparison {
    /// Runs all inputs and answers how many passed and how many failed; shows the first failure.
    pub fn compare(&self, path: &str, seed: u64, count: usize) -> Result<(usize, usize)> {
        let mut rng = Rng::new(seed);
        let first = (self.first)(&mut rng);
        let random = (0..count).map(|_| (self.random)(&mut rng));
        let (mut passed, mut failed) = (0, 0);
        for given in first.into_iter().chain(random) {
            let expected = (self.expected)(&given);
            let got = run(path, &given)?;
            if (self.is_same)(&expected, &got) {
                passed += 1;
                continue;
            }
            failed += 1;
            if failed == 1 {
                (self.report)(&given, &expected, &got);
            }
        }
        Ok((passed, failed))
    }

    /// Takes path, seed and count from the arguments. Exit status 0 only if all passed.
    pub fn main(&self) -> ExitCode {
        let program = self.program;
        let Some((path, seed, count)) = arguments() else {
            eprintln!("usage: {program}_cases {} SEED COUNT", program.to_uppercase());
            return ExitCode::from(2);
        };
        println!("seed {seed}");
        match self.compare(&path, seed, count) {
            Ok((passed, failed)) => {
                println!("{passed} passed, {failed} failed");
                ExitCode::from((failed > 0) as u8)
            }
            Err(error) => {
                eprintln!("cannot run the {program} program: {error}");
                ExitCode::from(2)
            }
        }
    }
}
