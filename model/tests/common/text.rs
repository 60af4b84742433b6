//! Runs the model as a program whose output is text.

#[path = "command.rs"]
mod command;

/// Exit status, standard output and standard error of `model` with these words
/// and this input.
pub fn run(words: &[&str], input: &str) -> (i32, String, String) {
    let (status, output, message) = command::run(words, input.as_bytes());
    let text = |bytes| String::from_utf8(bytes).unwrap();
    (status, text(output), text(message))
}
