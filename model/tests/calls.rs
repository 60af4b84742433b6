//! The subcommand `calls` as a program: its output, its messages and its exit status.

#[path = "common/text.rs"]
mod text;

/// Exit status, standard output and standard error of `model calls`.
fn run(input: &str) -> (i32, String, String) {
    text::run(&["calls"], input)
}

#[test]
fn one_book_is_kept_over_the_commands() {
    let input = "# a filing\njoin 0\n\njoin 0\ninterruption 0 0 1 0 0 181 1\nshow\nfresh\njoin 0";
    let output = "yes\nrefused 6\ncounted 0\n\
        1 0 0 | 0:1 1:1 2:1 3:1 4:1 5:1 | 0:10000 1:10000 2:10000 3:10000 | | 2:1 3:181 8:1\n\
        0 0 0 | | 0:10000 1:10000 2:10000 3:10000 | |\nyes\n";
    assert_eq!(run(input), (0, output.to_string(), String::new()));
}

#[test]
fn times_have_numbers_of_their_own() {
    let input = "join 0\ninterruption 0 0 0 0 5001 5000 1\n\
        interruption 0 0 0 0 94607000 94608000 1\ninterruption 0 0 0 0 -31536001 0 1\n\
        interruption 0 0 0 0 5000 5000 1\ninterruption 1 0 0 0 5001 5000 1\n\
        interruption 0 0 0 5 5001 5000 1\ninterruption 0 0 0 0 0 -1 1\n";
    let output = "yes\nrefused 14\nrefused 15\nrefused 15\nleft out short\nrefused 14\n\
        refused 5\nrefused 14\n";
    assert_eq!(run(input), (0, output.to_string(), String::new()));
}

#[test]
fn settling_leaves_the_book() {
    let input =
        "settle\njoin 7\nsetting 7 0 1\nsetting 7 1 1\nsetting 7 3 1\nsetting 7 4 1\nsettle\n\
        mark 7 0 0\nmark 7 5 0\nsettle\nsettle\njoin 7\n";
    let none = "0 | | | | | |\n";
    let settled = "yes 0 | 0:46200 5:1500 | 7:46200 87:1500 | | | |\n";
    let refused = format!("refused 10 {none}{}refused 12 {none}", "yes\n".repeat(5));
    let output = format!("{refused}yes\nyes\n{settled}{settled}refused 6\n");
    assert_eq!(run(input), (0, output, String::new()));
}

#[test]
fn stored_settings_are_shown_by_number() {
    let input = "store setting 1 0 7\nstore setting 1 3 8\nstore setting 1 4 9\n\
        store setting 1 1 5\nstore setting 1 2 6\nshow\n";
    let start = "0 0 0 | | 0:10000 1:10000 2:10000 3:10000";
    let output: String = [
        "5:7",
        "5:7 8:8",
        "5:7 8:8 9:9",
        "5:7 6:5 8:8 9:9",
        "5:7 6:5 7:6 8:8 9:9",
        "5:7 6:5 7:6 8:8 9:9",
    ]
    .map(|settings| format!("{start} | {settings} |\n"))
    .concat();
    assert_eq!(run(input), (0, output, String::new()));
}

#[test]
fn no_commands() {
    assert_eq!(run(""), (0, String::new(), String::new()));
    assert_eq!(run("\n# nothing\n"), (0, String::new(), String::new()));
}

#[test]
fn malformed_command() {
    let (status, output, message) = run("join 0\njoin 256\njoin 1\n");
    assert_eq!(status, 2);
    assert_eq!(output, "yes\n");
    assert!(message.contains("line 2:"), "{message}");
}
