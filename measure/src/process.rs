//! A program from its start to its answer.

use crate::clock::Times;
use std::io::{self, Write};
use std::path::Path;
use std::process::{Command, Stdio};
use std::time::Instant;

/// How often it runs; less often where a run takes longer than a second.
const RUNS: usize = 21;
const FEWEST: usize = 3;

/// Runs the program with the input, several times. Gives the times, and what it wrote each time.
pub fn time(program: &Path, words: &[&str], folder: &Path, input: &[u8]) -> io::Result<(Times, Vec<String>)> {
    let mut rounds = Vec::new();
    let mut written = Vec::new();
    while rounds.len() < RUNS {
        let (passed, text) = once(program, words, folder, input)?;
        rounds.push(passed);
        written.push(text);
        if passed > 1e9 && rounds.len() >= FEWEST || passed > 1e10 {
            break;
        }
    }
    Ok((Times::of(rounds), written))
}

/// Nanoseconds from start to end, and what was written to standard output and standard error.
fn once(program: &Path, words: &[&str], folder: &Path, input: &[u8]) -> io::Result<(f64, String)> {
    let begin = Instant::now();
    let mut child = Command::new(program)
        .args(words)
        .current_dir(folder)
        .stdin(Stdio::piped())
        .stdout(Stdio::piped())
        .stderr(Stdio::piped())
        .spawn()?;
    if let Some(mut pipe) = child.stdin.take() {
        // A program that reads nothing may be gone already.
        let _ = pipe.write_all(input);
    }
    let output = child.wait_with_output()?;
    let passed = begin.elapsed().as_nanos() as f64;
    if !output.status.success() {
        return Err(io::Error::other(format!("{} ended with {}", program.display(), output.status)));
    }
    let text = String::from_utf8_lossy(&output.stdout) + String::from_utf8_lossy(&output.stderr);
    Ok((passed, text.into_owned()))
}
