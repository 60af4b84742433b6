//! The subcommands `compare`, `compare-rewrite` and `compare-sheet` as a program,
//! with small scripts as the programs under test.

#[path = "common/folder.rs"]
mod folder;
#[path = "common/text.rs"]
mod text;

use folder::folder;
use model::sector::Sector;
use model::{generator, program};
use std::fs;
use std::path::{Path, PathBuf};
use text::run;

const SEED: u64 = 1;
/// The program under test.
const PROGRAM: &str = concat!(env!("CARGO_MANIFEST_DIR"), "/tests/common/program.sh");
/// The program that settles what the one under test writes.
const QUALITY: &str = concat!(env!("CARGO_MANIFEST_DIR"), "/tests/common/quality.sh");
/// Prints what the model prints.
const SETTLES: &str = concat!(env!("CARGO_BIN_EXE_model"), " program filing.q");
/// Writes what the model writes.
const REWRITES: &str = concat!(env!("CARGO_BIN_EXE_model"), " rewrite filing.q");
/// Prints the sheet that the model prints; the script has the two arguments.
const PRINTS_SHEETS: &str = concat!(env!("CARGO_BIN_EXE_model"), " sheet filing.q $1 $2");
/// The same of gas.
const SETTLES_GAS: &str = concat!(env!("CARGO_BIN_EXE_model"), " --gas program filing.q");
const REWRITES_GAS: &str = concat!(env!("CARGO_BIN_EXE_model"), " --gas rewrite filing.q");
/// How many filings are compared: some of them are refused.
const COUNT: &str = "10";
/// True from the second run of a program on, which is on what it wrote first.
const IS_LATER: &str = "echo run >>runs; [ $(wc -l <runs) -gt 1 ]";

/// The words of a comparison before the folder.
const SETTLING: &[&str] = &["compare", PROGRAM];
const REWRITING: &[&str] = &["compare-rewrite", PROGRAM, QUALITY];
const SHEETS: &[&str] = &["compare-sheet", PROGRAM];
const GAS: &[&str] = &["--gas", "compare", PROGRAM];
const REWRITING_GAS: &[&str] = &["--gas", "compare-rewrite", PROGRAM, QUALITY];
/// Programs of electricity on filings made for gas.
const GAS_FILINGS: &[&str] = &["--gas-filings", "compare", PROGRAM];
const REWRITING_GAS_FILINGS: &[&str] = &["--gas-filings", "compare-rewrite", PROGRAM, QUALITY];

/// A comparison in a folder of its own.
struct Compared {
    words: &'static [&'static str],
    folder: PathBuf,
    /// Exit status, standard output and standard error.
    given: (i32, String, String),
}

/// What a mismatch is about.
struct Noticed<'a> {
    number: u64,
    program: &'a str,
    subject: &'a str,
    /// What follows about how it ended, and what it put out.
    told: &'a str,
}

/// Runs a comparison of the filings from 0 on, in which the programs do what the
/// shell texts say.
fn compared(
    name: &str,
    words: &'static [&'static str],
    behaviour: &str,
    settling: &str,
) -> Compared {
    let folder = folder(name);
    fs::write(folder.join("behaviour.sh"), behaviour).unwrap();
    fs::write(folder.join("settling.sh"), settling).unwrap();
    let place = [folder.to_str().unwrap(), "1", "0", COUNT];
    let given = run(&[words, &place].concat(), "");
    Compared {
        words,
        folder,
        given,
    }
}

/// A comparison of a program that settles.
fn settling(name: &str, behaviour: &str) -> Compared {
    compared(name, SETTLING, behaviour, "")
}

/// A comparison of a program that rewrites, beside one that settles rightly.
fn rewriting(name: &str, behaviour: &str) -> Compared {
    compared(name, REWRITING, behaviour, SETTLES)
}

/// A comparison of a program that prints sheets.
fn sheets(name: &str, behaviour: &str) -> Compared {
    compared(name, SHEETS, behaviour, "")
}

/// The names of the filings kept in a folder.
fn kept(folder: &Path) -> Vec<String> {
    fs::read_dir(folder)
        .unwrap()
        .map(|entry| entry.unwrap().file_name().into_string().unwrap())
        .filter(|name| name.starts_with("mismatch"))
        .collect()
}

impl Compared {
    /// Nothing is noticed.
    fn is_taken(&self) {
        assert_eq!(self.given, (0, String::new(), String::new()));
        assert!(kept(&self.folder).is_empty());
    }

    /// The mismatch is told, and its filing is kept.
    fn has(&self, noticed: &Noticed) {
        let Noticed {
            number,
            program,
            subject,
            told,
        } = noticed;
        let file = format!("mismatch-{SEED}-{number}.q");
        assert_eq!(kept(&self.folder), [&file[..]]);
        let filing = fs::read(self.folder.join(&file)).unwrap();
        assert_eq!(filing, generator::filing(SEED, *number));
        let path = self.folder.display();
        let words = self.words.join(" ");
        let told = format!(
            "filing {number} of seed {SEED} is kept as {path}/{file}\n\
             to repeat: model {words} {path} {SEED} {number} 1\n\
             {program} differs on {subject}\n{told}"
        );
        assert_eq!(self.given, (1, told, String::new()));
    }

    /// The program under test is noticed at the first filing.
    fn is_noticed(&self, told: &str) {
        self.is_noticed_at(0, told);
    }

    fn is_noticed_at(&self, number: u64, told: &str) {
        self.has(&Noticed {
            number,
            program: PROGRAM,
            subject: "the filing",
            told,
        });
    }

    /// The program under test is noticed at the sheet that is asked of a filing.
    fn is_noticed_at_sheet(&self, number: u64, told: &str) {
        let (operator, year) = generator::asked_sheet(SEED, number);
        self.has(&Noticed {
            number,
            program: PROGRAM,
            subject: &format!("the filing, sheet of operator {operator} and year {year}"),
            told,
        });
    }

    /// The program is noticed on what was written for the first filing.
    fn is_noticed_on_written(&self, program: &str, told: &str) {
        self.has(&Noticed {
            number: 0,
            program,
            subject: "the written filing",
            told,
        });
    }
}

/// What is told of a stream that differs, without the text.
fn stream(name: &str, model: usize, program: usize, same: usize) -> String {
    format!(
        "standard {name}: {model} bytes by the model, {program} by the program, \
         the first {same} alike\n"
    )
}

/// What is told of a stream whose text differs, with so many first bytes alike.
fn text(name: &str, model: &str, program: &str, same: usize) -> String {
    let head = stream(name, model.len(), program.len(), same);
    format!("{head}by the model:\n{model}by the program:\n{program}")
}

/// What the model prints for the filing with that number.
fn printed(number: u64) -> String {
    let filing = generator::filing(SEED, number);
    String::from_utf8(program::printed(Some(&filing))).unwrap()
}

/// What the model prints for the sheet that is asked of the filing with that number.
fn sheet_printed(number: u64) -> String {
    let filing = generator::filing(SEED, number);
    let (operator, year) = generator::asked_sheet(SEED, number);
    String::from_utf8(program::sheet_printed(Some(&filing), operator, year)).unwrap()
}

/// The first filing of which a sheet is printed that isn't all zeros.
fn first_sheet() -> u64 {
    let zeros = "counted 0\nshort 0\nplanned 0\ncoupled 0\nexceptional 0\n";
    let is_sheet = |&number: &u64| {
        let printed = sheet_printed(number);
        printed.starts_with("counted") && printed != zeros
    };
    (0..COUNT.parse().unwrap()).find(is_sheet).unwrap()
}

/// How many bytes the model writes for the first filing.
fn written() -> usize {
    let filing = generator::filing(SEED, 0);
    program::rewritten(Some(&filing)).unwrap().len()
}

/// The first filing of which a field is refused, and its line.
fn first_refused() -> (u64, String) {
    let count: u64 = COUNT.parse().unwrap();
    let line = |number| program::rewritten(Some(&generator::filing(SEED, number))).err();
    (0..count)
        .find_map(|number| Some((number, String::from_utf8(line(number)?).unwrap())))
        .unwrap()
}

#[test]
fn right_programs_are_taken() {
    settling("settles", SETTLES).is_taken();
    rewriting("rewrites", REWRITES).is_taken();
    sheets("sheets", PRINTS_SHEETS).is_taken();
}

#[test]
fn right_programs_of_gas_are_taken() {
    compared("gas", GAS, SETTLES_GAS, "").is_taken();
    compared("rewrites_gas", REWRITING_GAS, REWRITES_GAS, SETTLES_GAS).is_taken();
    compared("gas_filings", GAS_FILINGS, SETTLES, "").is_taken();
    compared(
        "rewrites_gas_filings",
        REWRITING_GAS_FILINGS,
        REWRITES,
        SETTLES,
    )
    .is_taken();
}

/// A program is noticed that is of the other sector; what is told to repeat it names
/// its own, and gives the same.
fn is_told_with_its_sector(compared: &Compared, option: &str) {
    let (status, told, _) = &compared.given;
    assert_eq!(*status, 1);
    let repeat = told.lines().nth(1).unwrap();
    let start = format!("to repeat: model {option} ");
    assert!(repeat.starts_with(&start), "{told}");
    let words: Vec<&str> = repeat.split(' ').skip(3).collect();
    assert_eq!(run(&words, ""), compared.given);
    let [file] = &kept(&compared.folder)[..] else {
        panic!("{told}");
    };
    let number = file.strip_prefix("mismatch-1-").unwrap();
    let number = number.strip_suffix(".q").unwrap().parse().unwrap();
    let filing = generator::filing_in(Sector::Gas, SEED, number);
    assert_eq!(fs::read(compared.folder.join(file)).unwrap(), filing);
}

#[test]
fn programs_of_the_other_sector_are_noticed() {
    let other = compared("gas_by_electricity", GAS, SETTLES, "");
    is_told_with_its_sector(&other, "--gas");
    let other = compared("gas_filings_by_gas", GAS_FILINGS, SETTLES_GAS, "");
    is_told_with_its_sector(&other, "--gas-filings");
}

#[test]
fn other_output_is_noticed() {
    let right = printed(0);
    let told = text("output", &right, "other\n", 1);
    settling("other", "echo other").is_noticed(&told);
    let told = text("output", &right, "", 0);
    settling("silent", ":").is_noticed(&told);
    let cut = format!("{SETTLES} | head -c 5");
    let head = stream("output", right.len(), 5, 5);
    let told = format!("{head}by the model:\n{right}by the program:\nopera\n");
    settling("cut", &cut).is_noticed(&told);
}

#[test]
fn a_failure_is_noticed_though_the_output_is_right() {
    let failing = format!("{SETTLES}; exit 3");
    settling("failing", &failing).is_noticed("it fails: exit status: 3\n");
    let complaining = format!("{SETTLES}; echo beware >&2");
    let told = text("error", "", "beware\n", 0);
    settling("complaining", &complaining).is_noticed(&told);
    let failing = format!("{REWRITES}; exit 3");
    rewriting("failing_rewrite", &failing).is_noticed("it fails: exit status: 3\n");
    let complaining = format!("{REWRITES}; echo beware >&2");
    rewriting("complaining_rewrite", &complaining).is_noticed(&told);
}

#[test]
fn a_crash_is_noticed() {
    let failure = "it fails: signal: 9 (SIGKILL)\n";
    let told = format!("{failure}{}", text("output", &printed(0), "", 0));
    settling("crashing", "kill -9 $$").is_noticed(&told);
    let told = format!("{failure}{}", stream("output", written(), 0, 0));
    rewriting("crashing_rewrite", "kill -9 $$").is_noticed(&told);
}

#[test]
fn a_later_mismatch_is_noticed_and_can_be_repeated() {
    let later = format!("echo run >>runs; [ $(wc -l <runs) -gt 3 ] && exit 7; {SETTLES}");
    let nothing = text("output", &printed(3), "", 0);
    let told = format!("it fails: exit status: 7\n{nothing}");
    let compared = settling("later", &later);
    compared.is_noticed_at(3, &told);

    let (_, told, _) = &compared.given;
    let repeat = told.lines().nth(1).unwrap();
    let words: Vec<&str> = repeat.split(' ').skip(3).collect();
    assert_eq!(run(&words, ""), compared.given);
}

/// The program cannot be run, which is told and is no mismatch.
fn cannot_be_run(name: &str, words: &[&str], program: &str) {
    let folder = folder(name);
    fs::write(folder.join("behaviour.sh"), REWRITES).unwrap();
    let place = [folder.to_str().unwrap(), "1", "0", COUNT];
    let (status, output, message) = run(&[words, &[program], &place].concat(), "");
    assert_eq!((status, output), (2, String::new()));
    assert!(message.contains(program), "{message}");
    assert!(kept(&folder).is_empty());
}

#[test]
fn a_program_that_cannot_be_run_is_no_mismatch() {
    let not_executable = concat!(env!("CARGO_MANIFEST_DIR"), "/Cargo.toml");
    for (name, program) in [
        ("no_program", "/missing/program"),
        ("not_executable", not_executable),
    ] {
        cannot_be_run(name, &["compare"], program);
        let settling = format!("{name}_beside");
        cannot_be_run(&settling, &["compare-rewrite", PROGRAM], program);
        let sheets = format!("{name}_sheets");
        cannot_be_run(&sheets, &["compare-sheet"], program);
    }
}

#[test]
fn other_bytes_are_noticed() {
    let right = written();
    // A join less, and one byte more.
    let cut = format!("{REWRITES} | tail -c +5");
    let told = stream("output", right, right - 4, 3);
    rewriting("without_join", &cut).is_noticed(&told);
    let longer = format!("{REWRITES}; printf 7");
    let told = stream("output", right, right + 1, right);
    rewriting("longer", &longer).is_noticed(&told);
    let told = stream("output", right, 0, 0);
    rewriting("nothing", ":").is_noticed(&told);
}

#[test]
fn the_written_filing_is_rewritten_and_settled() {
    let right = written();
    let later = format!("{IS_LATER} && exit; {REWRITES}");
    let told = stream("output", right, 0, 0);
    rewriting("later_nothing", &later).is_noticed_on_written(PROGRAM, &told);
    let later = format!("{REWRITES}; {IS_LATER} && exit 4; true");
    let told = "it fails: exit status: 4\n";
    rewriting("later_failing", &later).is_noticed_on_written(PROGRAM, told);

    let told = text("output", &printed(0), "refused 10\n", 0);
    compared("unsettled", REWRITING, REWRITES, "echo refused 10")
        .is_noticed_on_written(QUALITY, &told);
}

#[test]
fn what_is_told_of_a_refused_field_is_compared() {
    let (number, line) = first_refused();
    let silent = format!("{REWRITES} 2>silence; true");
    let told = text("error", &line, "", 0);
    rewriting("refused_silently", &silent).is_noticed_at(number, &told);
    let printing = format!("{REWRITES} 2>&1; true");
    let told = [text("output", "", &line, 0), told].concat();
    rewriting("refused_on_output", &printing).is_noticed_at(number, &told);
    let longer = format!("{REWRITES} || echo more >&2");
    let told = text("error", &line, &format!("{line}more\n"), line.len());
    rewriting("refused_at_length", &longer).is_noticed_at(number, &told);
}

/// The first filing that is refused by that number, which is not rare.
fn first_refused_by(number: u8) -> u64 {
    let start = format!("refused {number} at ");
    let is_refused = |&filing: &u64| printed(filing).starts_with(&start);
    (0..500).find(is_refused).unwrap()
}

/// A program that gives another number at a filing is noticed.
fn other_number_is_noticed(filing: u64, line: &str, other: &str) {
    let folder = folder(&format!("number_{}", other.replace(' ', "_")));
    let behaviour = format!("{SETTLES} | sed 's/{line}/{other}/'");
    fs::write(folder.join("behaviour.sh"), behaviour).unwrap();
    let first = filing.to_string();
    let place = [folder.to_str().unwrap(), "1", &first, "1"];
    let (status, told, _) = run(&[SETTLING, &place].concat(), "");
    assert_eq!(status, 1, "{told}");
    let right = printed(filing);
    let wrong = right.replace(line, other);
    let given = format!("by the model:\n{right}by the program:\n{wrong}");
    assert!(told.ends_with(&given), "{told}");
}

#[test]
fn other_numbers_for_times_are_noticed() {
    let (by_14, by_15) = (first_refused_by(14), first_refused_by(15));
    other_number_is_noticed(by_14, "refused 14", "refused 15");
    other_number_is_noticed(by_15, "refused 15", "refused 14");
    other_number_is_noticed(by_14, "refused 14", "refused 5");
}

#[test]
fn the_status_of_a_refused_field_is_free() {
    rewriting("refused_well", &format!("{REWRITES}; true")).is_taken();
    rewriting("refused_badly", &format!("{REWRITES} || exit 101")).is_taken();
    let (number, _) = first_refused();
    let killed = format!("{REWRITES} || kill -9 $$");
    let told = "it fails: signal: 9 (SIGKILL)\n";
    rewriting("refused_and_killed", &killed).is_noticed_at(number, told);
}

#[test]
fn other_sheets_are_noticed() {
    let right = sheet_printed(0);
    let told = text("output", &right, "", 0);
    sheets("no_sheet", ":").is_noticed_at_sheet(0, &told);
    let failing = format!("{PRINTS_SHEETS}; exit 3");
    sheets("failing_sheet", &failing).is_noticed_at_sheet(0, "it fails: exit status: 3\n");
    let complaining = format!("{PRINTS_SHEETS}; echo beware >&2");
    let told = text("error", "", "beware\n", 0);
    sheets("complaining_sheet", &complaining).is_noticed_at_sheet(0, &told);
    // The settlement is no sheet.
    let compared = sheets("settled_sheet", SETTLES);
    assert_eq!(compared.given.0, 1);
}

#[test]
fn a_wrong_count_is_noticed_and_can_be_repeated() {
    let number = first_sheet();
    let emptied = format!("{PRINTS_SHEETS} | sed '/^refused/!s/ [0-9]*$/ 0/'");
    let compared = sheets("wrong_count", &emptied);
    assert_eq!(compared.given.0, 1);
    let (_, told, _) = &compared.given;
    assert!(
        told.starts_with(&format!("filing {number} of seed {SEED} is kept")),
        "{told}"
    );
    let (operator, year) = generator::asked_sheet(SEED, number);
    assert!(
        told.contains(&format!("sheet of operator {operator} and year {year}\n")),
        "{told}"
    );
    let repeat = told.lines().nth(1).unwrap();
    let words: Vec<&str> = repeat.split(' ').skip(3).collect();
    assert_eq!(run(&words, ""), compared.given);
}
