//! The subcommand `walk` as a program: its output, its messages and its exit status.

#[path = "common/text.rs"]
mod text;

/// Exit status, standard output and standard error of `model walk`.
fn run(input: &str) -> (i32, String, String) {
    text::run(&["walk"], input)
}

#[test]
fn every_line_is_a_filing() {
    let input = "\n1 0\n99 0 0\n1 0 2 0 0\n\n1 0 1 0 1 0 1 0\n5 0 3 0 6 1 8 0 0";
    let output = "0 0 end\n0 0 refused 1\n0 0 refused 2\n0 0 refused 3\n\
        0 0 end\n2 8 end\n1 6 refused 2\n";
    assert_eq!(run(input), (0, output.to_string(), String::new()));
}

#[test]
fn no_filings() {
    assert_eq!(run(""), (0, String::new(), String::new()));
}

#[test]
fn numbers_that_are_no_bytes() {
    for line in ["1 0 1 256", "1 -1", "# a filing", "1  0", " ", "join 0"] {
        let (status, output, message) = run(&format!("1 0 1 0\n{line}\n1 0 1 0\n"));
        assert_eq!((status, output), (2, "1 4 end\n".to_string()), "{line:?}");
        assert!(message.contains("line 2:"), "{message}");
    }
}
