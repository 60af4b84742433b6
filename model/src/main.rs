//! The command line of the model: picks the subcommand, reads its lines and
//! prints the answers, which the modules compute.

use model::book::Book;
use model::compare::{Comparison, Pairing, Programs};
use model::files::of_file;
use model::numbers::{number, numbers};
use model::sector::Sector;
use model::{exponent, product, program, script, sharing, walk};
use std::fs;
use std::io::{self, BufRead, BufWriter, ErrorKind, Write};
use std::ops::Range;
use std::process::ExitCode;

const SUBCOMMANDS: &str = "expected one of: share, product, table, calls, encode, walk, \
    program FILE, rewrite FILE, sheet FILE OPERATOR YEAR, \
    compare QUALITY DIR SEED FIRST COUNT, \
    compare-rewrite REWRITE QUALITY DIR SEED FIRST COUNT, \
    compare-sheet SHEET DIR SEED FIRST COUNT; \
    before calls, encode, program, rewrite, compare and compare-rewrite may stand --gas, \
    before the last two --gas-filings";

const DONE: u8 = 0;
/// The exit status of `rewrite` when nothing is written.
const REFUSED: u8 = 1;
/// The exit status of a comparison when a program and the model differ.
const DIFFERENT: u8 = 1;
/// The exit status for malformed input.
const MALFORMED: u8 = 2;

fn main() -> ExitCode {
    let arguments: Vec<String> = std::env::args().skip(1).collect();
    let words: Vec<&str> = arguments.iter().map(|word| word.as_str()).collect();
    let mut output = BufWriter::new(io::stdout().lock());
    let mut result = dispatch(&words, &mut output);
    // Answers given before a malformed line are printed as well (not of `encode`).
    if let Err(error) = output.flush() {
        result = result.and(Err(error.to_string()));
    }
    match result {
        Ok(status) => ExitCode::from(status),
        Err(message) => {
            eprintln!("model: {message}");
            ExitCode::from(MALFORMED)
        }
    }
}

/// Does what the words say; answers the exit status.
fn dispatch(words: &[&str], output: &mut impl Write) -> Result<u8, String> {
    match words {
        ["--gas", words @ ..] => for_both(Sector::Gas, words, output),
        ["--gas-filings", words @ ..] => comparison(Pairing::GasFilings, words, output),
        _ => for_electricity(words, output),
    }
}

/// The subcommands that are electricity's alone or of no sector, and the others for
/// electricity.
fn for_electricity(words: &[&str], output: &mut impl Write) -> Result<u8, String> {
    match words {
        ["share"] => answer_lines(input(), output, on_numbers(sharing::answer)),
        ["product"] => answer_lines(input(), output, on_numbers(product::answer)),
        ["table"] => print_table(output),
        // Each line is a filing, the empty one too.
        ["walk"] => for_lines(input(), output, as_line(walk::answer)),
        ["sheet", file, operator, year] => print_sheet(file, operator, year, output),
        ["compare-sheet", sheet, place @ ..] => {
            let programs = Programs::printing_sheets(sheet);
            compare(Pairing::Electricity, programs, place, output)
        }
        _ => for_both(Sector::Electricity, words, output),
    }
}

/// The subcommands that there are for both sectors.
fn for_both(sector: Sector, words: &[&str], output: &mut impl Write) -> Result<u8, String> {
    match words {
        ["calls"] => answer_calls(sector, input(), output),
        // A call has the same bytes in both.
        ["encode"] => encode(input(), output),
        ["program", file] => print_program(sector, file, output),
        ["rewrite", file] => rewrite(sector, file, output),
        _ => comparison(Pairing::within(sector), words, output),
    }
}

/// A comparison of programs for which there is that pairing.
fn comparison(pairing: Pairing, words: &[&str], output: &mut impl Write) -> Result<u8, String> {
    match words {
        ["compare", quality, place @ ..] => {
            compare(pairing, Programs::settling(quality), place, output)
        }
        ["compare-rewrite", rewrite, quality, place @ ..] => {
            let programs = Programs::rewriting(rewrite, quality);
            compare(pairing, programs, place, output)
        }
        _ => Err(SUBCOMMANDS.to_string()),
    }
}

/// Standard input, which only one subcommand may hold.
fn input() -> impl BufRead {
    io::stdin().lock()
}

fn print_table(output: &mut impl Write) -> Result<u8, String> {
    for weight in exponent::table() {
        print(output, format!("{weight}\n").as_bytes())?;
    }
    Ok(DONE)
}

/// Answers text commands, which all work on one book.
fn answer_calls(
    sector: Sector,
    input: impl BufRead,
    output: &mut impl Write,
) -> Result<u8, String> {
    let mut book = Book::fresh_in(sector);
    answer_lines(input, output, |line| script::answer(&mut book, line))
}

/// Encodes filing calls: the whole filing, or nothing if a line is malformed, since
/// a part of a filing would be read as one.
fn encode(input: impl BufRead, output: &mut impl Write) -> Result<u8, String> {
    let mut filing = Vec::new();
    for_lines(input, &mut filing, unless_comment(script::encode))?;
    print(output, &filing)?;
    Ok(DONE)
}

fn print_program(sector: Sector, file: &str, output: &mut impl Write) -> Result<u8, String> {
    let bytes = read_if_present(file)?;
    print(output, &program::printed_in(sector, bytes.as_deref()))?;
    Ok(DONE)
}

/// Prints the sheet of an operator and year in the book that a file makes.
fn print_sheet(
    file: &str,
    operator: &str,
    year: &str,
    output: &mut impl Write,
) -> Result<u8, String> {
    let (operator, year) = (number(operator)?, number(year)?);
    let bytes = read_if_present(file)?;
    let printed = program::sheet_printed(bytes.as_deref(), operator, year);
    print(output, &printed)?;
    Ok(DONE)
}

/// Prints the written filing of the book that a file makes, or tells on standard
/// error why there is none.
fn rewrite(sector: Sector, file: &str, output: &mut impl Write) -> Result<u8, String> {
    let bytes = read_if_present(file)?;
    match program::rewritten_in(sector, bytes.as_deref()) {
        Ok(written) => {
            print(output, &written)?;
            Ok(DONE)
        }
        Err(line) => {
            print(&mut io::stderr(), &line)?;
            Ok(REFUSED)
        }
    }
}

/// Compares the programs with the model on so many filings from the first on. The
/// place is the folder, the seed, the first filing and their count.
fn compare(
    pairing: Pairing,
    programs: Result<Programs, String>,
    place: &[&str],
    output: &mut impl Write,
) -> Result<u8, String> {
    let [folder, seed, first, count] = place else {
        return Err(SUBCOMMANDS.to_string());
    };
    let programs = programs?;
    let numbers = numbers_of(first, count)?;
    let comparison = Comparison::new(pairing, programs, folder, number(seed)?)?;
    let Some(mismatch) = comparison.first_mismatch(numbers)? else {
        return Ok(DONE);
    };
    print(output, &comparison.described(&mismatch))?;
    Ok(DIFFERENT)
}

/// The bytes of a file, or none if it is missing.
fn read_if_present(file: &str) -> Result<Option<Vec<u8>>, String> {
    match fs::read(file) {
        Ok(bytes) => Ok(Some(bytes)),
        Err(error) if error.kind() == ErrorKind::NotFound => Ok(None),
        Err(error) => Err(of_file(file)(error)),
    }
}

/// The numbers of `count` filings from `first` on.
fn numbers_of(first: &str, count: &str) -> Result<Range<u64>, String> {
    let first: u64 = number(first)?;
    match first.checked_add(number(count)?) {
        Some(end) => Ok(first..end),
        None => Err("the last number is past 64 bits".to_string()),
    }
}

/// Answers each line that is no comment by one line.
fn answer_lines(
    input: impl BufRead,
    output: &mut impl Write,
    answer: impl FnMut(&str) -> Result<String, String>,
) -> Result<u8, String> {
    for_lines(input, output, unless_comment(as_line(answer)))
}

/// Answers each line by bytes.
fn for_lines(
    input: impl BufRead,
    output: &mut impl Write,
    mut answer: impl FnMut(&str) -> Result<Vec<u8>, String>,
) -> Result<u8, String> {
    for (index, line) in input.lines().enumerate() {
        print(output, &answered(index, line, &mut answer)?)?;
    }
    Ok(DONE)
}

/// The answer to one line, or a message that has the line's number.
fn answered(
    index: usize,
    line: io::Result<String>,
    mut answer: impl FnMut(&str) -> Result<Vec<u8>, String>,
) -> Result<Vec<u8>, String> {
    let in_line = |message: String| format!("line {}: {message}", index + 1);
    let line = line.map_err(|error| in_line(error.to_string()))?;
    answer(&line).map_err(in_line)
}

/// Turns an answer in words into a line of them.
fn as_line(
    mut answer: impl FnMut(&str) -> Result<String, String>,
) -> impl FnMut(&str) -> Result<Vec<u8>, String> {
    move |line| Ok(format!("{}\n", answer(line)?).into_bytes())
}

/// Answers nothing to a line that is empty or starts with `#`.
fn unless_comment(
    mut answer: impl FnMut(&str) -> Result<Vec<u8>, String>,
) -> impl FnMut(&str) -> Result<Vec<u8>, String> {
    move |line| {
        if line.is_empty() || line.starts_with('#') {
            return Ok(Vec::new());
        }
        answer(line)
    }
}

/// Turns an answer to numbers into an answer to a line of them.
fn on_numbers(
    answer: fn(&[u64]) -> Result<Vec<u128>, String>,
) -> impl Fn(&str) -> Result<String, String> {
    move |line| {
        let answers = answer(&numbers(line)?)?;
        let words: Vec<String> = answers.iter().map(|number| number.to_string()).collect();
        Ok(words.join(" "))
    }
}

fn print(output: &mut impl Write, bytes: &[u8]) -> Result<(), String> {
    output.write_all(bytes).map_err(|error| error.to_string())
}

#[cfg(test)]
mod tests {
    use super::*;

    fn run(
        input: &str,
        answer: fn(&[u64]) -> Result<Vec<u128>, String>,
    ) -> (String, Result<u8, String>) {
        let mut output = Vec::new();
        let result = answer_lines(input.as_bytes(), &mut output, on_numbers(answer));
        (String::from_utf8(output).unwrap(), result)
    }

    #[test]
    fn lines_are_answered_in_order() {
        let (output, result) = run(
            "# amount, weights, sizes\n10 1 1 1 7 7 7\n\n5 0 0 1 2\n10 1 1 1 1 1 2\n",
            sharing::answer,
        );
        assert_eq!(output, "4 3 3\n0 0\n3 3 4\n");
        assert_eq!(result, Ok(DONE));
        let (output, result) = run("10 1 3\n18446744073709551615 2 3", product::answer);
        assert_eq!(output, "3 1\n12297829382473034410 0\n");
        assert_eq!(result, Ok(DONE));
    }

    #[test]
    fn answers_before_a_malformed_line_are_kept() {
        let (output, result) = run("10 1 1 1 7 7 7\n10 1 1 1\n10 1 1\n", sharing::answer);
        assert_eq!(output, "4 3 3\n");
        // A weight without a size.
        assert!(result.unwrap_err().starts_with("line 2:"));
    }

    #[test]
    fn unknown_subcommands_are_refused() {
        let mut output = Vec::new();
        let refused = Err(SUBCOMMANDS.to_string());
        for words in [
            &[] as &[&str],
            &["shares"],
            &["table", "table"],
            &["program"],
            &["program", "a", "b"],
            &["rewrite"],
            &["encode", "a"],
            &["walk", "a"],
            &["rewrite", "a", "b"],
            &["sheet"],
            &["sheet", "a", "0"],
            &["sheet", "a", "0", "0", "0"],
            &["compare", "quality", "folder", "1", "2"],
            &["compare", "quality", "folder", "1", "2", "3", "4"],
            &["compare-rewrite", "rewrite", "folder", "1", "2", "3"],
            &["compare-sheet", "sheet", "folder", "1", "2"],
            &["compare-sheet", "sheet", "folder", "1", "2", "3", "4"],
            &["gas", "program", "a"],
            &["program", "--gas", "a"],
            &["--gas"],
            &["--gas", "--gas", "program", "a"],
            &["--gas", "program"],
            &["--gas", "rewrite", "a", "b"],
            &["--gas", "share"],
            &["--gas", "walk"],
            &["--gas", "sheet", "a", "0", "0"],
            &["--gas", "compare", "quality", "folder", "1", "2"],
            &["--gas", "compare-sheet", "sheet", "folder", "1", "2", "3"],
            &["--gas-filings", "program", "a"],
            &["--gas-filings", "compare", "quality", "folder", "1", "2"],
        ] {
            assert_eq!(dispatch(words, &mut output), refused, "{words:?}");
        }
        assert!(output.is_empty());
    }

    #[test]
    fn ranges_of_filings() {
        assert_eq!(numbers_of("2", "3"), Ok(2..5));
        assert_eq!(numbers_of("2", "0"), Ok(2..2));
        assert_eq!(
            numbers_of("18446744073709551615", "0").map(|numbers| numbers.end),
            Ok(u64::MAX)
        );
        for (first, count) in [
            ("2", "x"),
            ("2", "-3"),
            ("", "1"),
            ("18446744073709551615", "1"),
        ] {
            assert!(numbers_of(first, count).is_err(), "{first:?} {count:?}");
        }
    }
}
