//! Runs the model as a program.

use std::io::Write;
use std::process::{Command, Stdio};

/// Exit status, standard output and standard error of `model` with these words
/// and this input.
pub fn run(words: &[&str], input: &[u8]) -> (i32, Vec<u8>, Vec<u8>) {
    let mut program = Command::new(env!("CARGO_BIN_EXE_model"))
        .args(words)
        .stdin(Stdio::piped())
        .stdout(Stdio::piped())
        .stderr(Stdio::piped())
        .spawn()
        .unwrap();
    program.stdin.take().unwrap().write_all(input).unwrap();
    let result = program.wait_with_output().unwrap();
    let status = result.status.code().unwrap();
    (status, result.stdout, result.stderr)
}
