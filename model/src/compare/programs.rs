//! The programs under test: what a filing asks of them, and what the model gives.

use super::Pairing;
use crate::files::of_file;
use crate::generator;
use crate::program;
use crate::sector::Sector;
use std::fs;
use std::path::{Path, PathBuf};

/// The programs under test, by their paths.
pub enum Programs {
    /// One that settles a filing.
    Settling { quality: PathBuf },
    /// One that rewrites a filing; what it writes is settled by the other.
    Rewriting { rewrite: PathBuf, quality: PathBuf },
    /// One that prints the sheet of an operator and year in a filing.
    Sheets { sheet: PathBuf },
}

/// What a program puts on standard output and on standard error.
#[derive(Debug, PartialEq, Eq)]
pub struct Streams {
    pub output: Vec<u8>,
    pub error: Vec<u8>,
}

/// One run that a filing asks for, and what the model gives for it.
pub struct Task {
    pub program: PathBuf,
    pub arguments: Vec<String>,
    /// Which filing it is, in words, and what is asked of it.
    pub subject: String,
    pub filing: Vec<u8>,
    pub expected: Streams,
}

impl Streams {
    fn output(output: Vec<u8>) -> Streams {
        let error = Vec::new();
        Streams { output, error }
    }

    fn error(error: Vec<u8>) -> Streams {
        let output = Vec::new();
        Streams { output, error }
    }
}

impl Programs {
    pub fn settling(quality: &str) -> Result<Programs, String> {
        let quality = absolute(quality)?;
        Ok(Programs::Settling { quality })
    }

    pub fn rewriting(rewrite: &str, quality: &str) -> Result<Programs, String> {
        let rewrite = absolute(rewrite)?;
        let quality = absolute(quality)?;
        Ok(Programs::Rewriting { rewrite, quality })
    }

    pub fn printing_sheets(sheet: &str) -> Result<Programs, String> {
        let sheet = absolute(sheet)?;
        Ok(Programs::Sheets { sheet })
    }

    /// The subcommand of the comparison, and the programs that it names.
    pub fn words(&self) -> String {
        match self {
            Programs::Settling { quality } => format!("compare {}", quality.display()),
            Programs::Rewriting { rewrite, quality } => {
                format!(
                    "compare-rewrite {} {}",
                    rewrite.display(),
                    quality.display()
                )
            }
            Programs::Sheets { sheet } => format!("compare-sheet {}", sheet.display()),
        }
    }

    /// The runs that the filing with that number of a seed asks for, in turn.
    pub fn tasks(&self, pairing: Pairing, seed: u64, number: u64) -> Vec<Task> {
        let sector = pairing.programs();
        let filing = &pairing.filing(seed, number)[..];
        match self {
            Programs::Settling { quality } => {
                vec![task(quality, "the filing", filing, settled(sector, filing))]
            }
            Programs::Rewriting { rewrite, quality } => {
                rewriting_tasks(sector, rewrite, quality, filing)
            }
            Programs::Sheets { sheet } => {
                let asked = generator::asked_sheet(seed, number);
                vec![sheet_task(sheet, filing, asked)]
            }
        }
    }
}

/// What the program that settles puts out.
fn settled(sector: Sector, filing: &[u8]) -> Streams {
    Streams::output(program::printed_in(sector, Some(filing)))
}

/// The filing is rewritten, if it is read whole; what was written is rewritten as
/// itself, and settles as the filing does.
fn rewriting_tasks(sector: Sector, rewrite: &Path, quality: &Path, filing: &[u8]) -> Vec<Task> {
    let written = match program::rewritten_in(sector, Some(filing)) {
        Err(line) => return vec![task(rewrite, "the filing", filing, Streams::error(line))],
        Ok(written) => written,
    };
    let same = || Streams::output(written.clone());
    let printed = settled(sector, filing);
    vec![
        task(rewrite, "the filing", filing, same()),
        task(rewrite, "the written filing", &written, same()),
        task(quality, "the written filing", &written, printed),
    ]
}

/// The sheet of one operator and year is printed, which are the two arguments.
fn sheet_task(sheet: &Path, filing: &[u8], (operator, year): (u8, u8)) -> Task {
    let printed = program::sheet_printed(Some(filing), operator, year);
    let subject = format!("the filing, sheet of operator {operator} and year {year}");
    Task {
        arguments: vec![operator.to_string(), year.to_string()],
        ..task(sheet, &subject, filing, Streams::output(printed))
    }
}

/// A run without arguments.
fn task(program: &Path, subject: &str, filing: &[u8], expected: Streams) -> Task {
    Task {
        program: program.to_path_buf(),
        arguments: Vec::new(),
        subject: subject.to_string(),
        filing: filing.to_vec(),
        expected,
    }
}

/// A path that also holds in another folder: the programs are run in one.
fn absolute(program: &str) -> Result<PathBuf, String> {
    fs::canonicalize(program).map_err(of_file(program))
}
