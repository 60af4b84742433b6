//! The subcommands `encode`, `program` and `rewrite` as a program: their output
//! and exit status.

#[path = "../src/case_m.rs"]
mod case_m;
#[path = "common/command.rs"]
mod command;
#[path = "common/folder.rs"]
mod folder;

use command::run;
use folder::folder;
use std::fs;

/// What a run gives that prints this and does its work.
fn done(output: impl Into<Vec<u8>>) -> (i32, Vec<u8>, Vec<u8>) {
    (0, output.into(), Vec::new())
}

#[test]
fn case_m_from_commands_to_print() {
    let (status, filing, _) = run(&["encode"], case_m::calls().join("\n").as_bytes());
    assert_eq!((status, filing.len()), (0, 251));
    let file = folder("case_m").join("filing.q");
    fs::write(&file, &filing).unwrap();
    let file = file.to_str().unwrap();
    assert_eq!(run(&["program", file], b""), done(case_m::PRINTED));

    // Rewritten: the settings by operator. Once more: the same bytes.
    let by_operator = b"join 0\njoin 1\n\
        setting 0 0 100\nsetting 0 1 1000\nsetting 0 2 100000000\n\
        setting 0 3 100\nsetting 0 4 100\n\
        setting 1 0 100\nsetting 1 1 3000\nsetting 1 2 200000000\n\
        setting 1 3 100\nsetting 1 4 100\n\
        amount 1 0 4 0 50000\namount 1 0 5 0 100\n\
        mark 0 0 0\nmark 0 1 0\nmark 0 2 0\nmark 0 3 0\nmark 0 4 0\nmark 0 5 0\n\
        mark 1 0 0\nmark 1 1 0\nmark 1 2 0\nmark 1 3 0\nmark 1 4 0\nmark 1 5 0\n\
        rates 5000 10000\n";
    let (_, rewritten, _) = run(&["encode"], by_operator);
    assert_ne!(rewritten, filing);
    assert_eq!(run(&["rewrite", file], b""), done(rewritten.clone()));
    fs::write(file, &rewritten).unwrap();
    assert_eq!(run(&["rewrite", file], b""), done(rewritten));
    assert_eq!(run(&["program", file], b""), done(case_m::PRINTED));
}

#[test]
fn encoded_commands() {
    let input = b"join 16\nmark 0 6 1\nindex 3 1\n";
    let bytes = [1, 0, 1, 16, 5, 0, 3, 0, 6, 1, 7, 0, 5, 3, 0, 0, 0, 1];
    assert_eq!(run(&["encode"], input), done(bytes));
    assert_eq!(run(&["encode"], b"\n# nothing\n"), done([]));
    for command in [
        "settle",
        "show",
        "fresh",
        "store pot 1",
        "sheet 0 0",
        "join 256",
        "join",
    ] {
        assert_eq!(run(&["encode"], command.as_bytes()).0, 2, "{command}");
    }
}

#[test]
fn nothing_is_encoded_if_a_line_is_malformed() {
    for input in [
        "join 0\njoin 1\namount 0 0 4 0 5o000\n",
        "join 256\njoin 0\n",
        "join 0\nsettle\njoin 1\n",
    ] {
        let (status, output, message) = run(&["encode"], input.as_bytes());
        assert_eq!((status, output), (2, Vec::new()), "{input}");
        assert!(!message.is_empty(), "{input}");
    }
}

#[test]
fn missing_files() {
    let missing = folder("missing").join("missing.q");
    let missing = missing.to_str().unwrap();
    assert_eq!(run(&["program", missing], b""), done("refused 10\n"));
    assert_eq!(run(&["rewrite", missing], b""), done([]));
}

#[test]
fn unreadable_files() {
    let unreadable = folder("unreadable");
    let unreadable = unreadable.to_str().unwrap();
    for subcommand in ["program", "rewrite"] {
        let (status, output, message) = run(&[subcommand, unreadable], b"");
        assert_eq!((status, output), (2, Vec::new()));
        let message = String::from_utf8(message).unwrap();
        assert!(message.contains(unreadable), "{message}");
    }
}

#[test]
fn refused_files() {
    let file = folder("refused").join("filing.q");
    let path = file.to_str().unwrap();
    let prints = |filing: &[u8], line: &str| {
        fs::write(&file, filing).unwrap();
        assert_eq!(run(&["program", path], b""), done(line));
    };
    let refused = |filing: &[u8], line: &str| {
        prints(filing, line);
        let told = (1, Vec::new(), line.as_bytes().to_vec());
        assert_eq!(run(&["rewrite", path], b""), told);
    };
    // A book that doesn't settle is written all the same.
    let written_as_it_is = |filing: &[u8], line: &str| {
        prints(filing, line);
        assert_eq!(run(&["rewrite", path], b""), done(filing));
    };
    refused(&[1, 0], "refused 1 at 0\n");
    refused(&[1, 0, 1, 0, 1, 0, 1, 0], "refused 6 at 4\n");
    refused(&[0; 65_536], "refused 2 at 0\n");
    refused(&[0; 65_537], "too long\n");
    written_as_it_is(&[], "refused 10\n");
    written_as_it_is(&[1, 0, 1, 0], "refused 11\n");
}

/// The calls of a book in which every mark is cleared and every other value
/// differs from the fresh one, in the order of the writer.
fn largest_book() -> Vec<String> {
    let joins = (0..16).map(|operator| format!("join {operator}"));
    let settings = places(&[16, 5]).map(|place| format!("setting {place} 1"));
    let amounts = places(&[16, 3, 13]).map(|place| format!("amount {place} 0 1"));
    let marks = places(&[16, 6]).map(|place| format!("mark {place} 0"));
    let indices = (0..4).map(|number| format!("index {number} 1"));
    let rates = ["rates 1 1".to_string()];
    joins
        .chain(settings)
        .chain(amounts)
        .chain(marks)
        .chain(indices)
        .chain(rates)
        .collect()
}

/// The places below these counts as words, in rising order.
fn places(counts: &[u32]) -> impl Iterator<Item = String> {
    let mut places = vec![String::new()];
    for &count in counts {
        places = places
            .iter()
            .flat_map(|place| (0..count).map(move |number| format!("{place} {number}")))
            .collect();
    }
    places.into_iter().map(|place| place.trim().to_string())
}

#[test]
fn largest_book_is_rewritten() {
    let calls = largest_book();
    let (_, expected, _) = run(&["encode"], calls.join("\n").as_bytes());
    assert_eq!(expected.len(), 11_083);
    // The joins, then the other calls from the last to the first.
    let others = calls[16..].iter().rev();
    let turned: Vec<String> = calls[..16].iter().chain(others).cloned().collect();
    let (_, filing, _) = run(&["encode"], turned.join("\n").as_bytes());
    assert_ne!(filing, expected);
    let file = folder("largest").join("filing.q");
    fs::write(&file, filing).unwrap();
    let file = file.to_str().unwrap();
    assert_eq!(run(&["rewrite", file], b""), done(expected));
}
