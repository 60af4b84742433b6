//! Runs programs on generated filings and holds every byte that they put on
//! standard output and standard error to what the model gives.

mod pairing;
mod programs;

use crate::files::of_file;
pub use pairing::Pairing;
pub use programs::Programs;
use programs::{Streams, Task};
use std::fs;
use std::ops::Range;
use std::path::{Path, PathBuf};
use std::process::{Command, ExitStatus, Stdio};

/// Programs, the seed of the filings they are run on, and the folder they are
/// run in.
pub struct Comparison {
    pairing: Pairing,
    programs: Programs,
    folder: PathBuf,
    seed: u64,
}

/// A filing on which a program fails, or puts out other than the model.
pub struct Mismatch {
    number: u64,
    difference: Difference,
    /// Where the filing is kept.
    kept: PathBuf,
}

/// A task that a program has not done.
struct Difference {
    task: Task,
    given: Streams,
    /// How the program ended, if badly.
    failure: Option<ExitStatus>,
}

impl Comparison {
    /// Makes the folder if it is missing; it should hold nothing else.
    pub fn new(
        pairing: Pairing,
        programs: Programs,
        folder: &str,
        seed: u64,
    ) -> Result<Comparison, String> {
        fs::create_dir_all(folder).map_err(of_file(folder))?;
        Ok(Comparison {
            pairing,
            programs,
            folder: PathBuf::from(folder),
            seed,
        })
    }

    /// The first mismatch among the filings with these numbers.
    pub fn first_mismatch(&self, numbers: Range<u64>) -> Result<Option<Mismatch>, String> {
        for number in numbers {
            if let Some(mismatch) = self.mismatch_at(number)? {
                return Ok(Some(mismatch));
            }
        }
        Ok(None)
    }

    /// Has the tasks of one filing done, and keeps the filing on a mismatch.
    fn mismatch_at(&self, number: u64) -> Result<Option<Mismatch>, String> {
        for task in self.programs.tasks(self.pairing, self.seed, number) {
            if let Some(difference) = self.difference(task)? {
                let kept = self.keep(number)?;
                return Ok(Some(Mismatch {
                    number,
                    difference,
                    kept,
                }));
            }
        }
        Ok(None)
    }

    fn keep(&self, number: u64) -> Result<PathBuf, String> {
        let name = format!("mismatch-{}-{number}.q", self.seed);
        let kept = self.folder.join(name);
        let filing = self.pairing.filing(self.seed, number);
        fs::write(&kept, filing).map_err(of_file(&kept))?;
        Ok(kept)
    }

    /// Runs a program in the folder, with the filing of its task.
    fn difference(&self, task: Task) -> Result<Option<Difference>, String> {
        let file = self.folder.join("filing.q");
        fs::write(&file, &task.filing).map_err(of_file(&file))?;
        let (status, given) = run(&task, &self.folder)?;
        let failed = fails(status, &task.expected);
        if !failed && given == task.expected {
            return Ok(None);
        }
        Ok(Some(Difference {
            task,
            given,
            failure: failed.then_some(status),
        }))
    }

    /// What a mismatch was, and how to repeat it.
    pub fn described(&self, mismatch: &Mismatch) -> Vec<u8> {
        let Mismatch {
            number, difference, ..
        } = mismatch;
        let seed = self.seed;
        let kept = mismatch.kept.display();
        let words = [self.pairing.option(), &self.programs.words()].concat();
        let folder = self.folder.display();
        let head = format!(
            "filing {number} of seed {seed} is kept as {kept}\n\
             to repeat: model {words} {folder} {seed} {number} 1\n"
        );
        [head.into_bytes(), difference.described()].concat()
    }
}

impl Difference {
    fn described(&self) -> Vec<u8> {
        let Task {
            program,
            subject,
            expected,
            ..
        } = &self.task;
        let mut head = format!("{} differs on {subject}\n", program.display());
        if let Some(status) = self.failure {
            head += &format!("it fails: {status}\n");
        }
        [
            head.into_bytes(),
            stream_difference("output", &expected.output, &self.given.output),
            stream_difference("error", &expected.error, &self.given.error),
        ]
        .concat()
    }
}

/// How the program of a task ends that is run in the folder, and what it puts out.
fn run(task: &Task, folder: &Path) -> Result<(ExitStatus, Streams), String> {
    let given = Command::new(&task.program)
        .args(&task.arguments)
        .current_dir(folder)
        .stdin(Stdio::null())
        .output()
        .map_err(of_file(&task.program))?;
    let streams = Streams {
        output: given.stdout,
        error: given.stderr,
    };
    Ok((given.status, streams))
}

/// Whether the program ended badly: by a signal, or by a status other than 0
/// where nothing is to be put on standard error. Where a line is to be put there
/// any status will do, because 01 names none.
fn fails(status: ExitStatus, expected: &Streams) -> bool {
    if expected.error.is_empty() {
        !status.success()
    } else {
        status.code().is_none()
    }
}

/// Nothing if both put out the same; the bytes themselves only if they are text.
fn stream_difference(stream: &str, model: &[u8], program: &[u8]) -> Vec<u8> {
    if model == program {
        return Vec::new();
    }
    let pairs = model.iter().zip(program);
    let same = pairs
        .take_while(|(model, program)| model == program)
        .count();
    let head = format!(
        "standard {stream}: {} bytes by the model, {} by the program, the first {same} alike\n",
        model.len(),
        program.len()
    );
    if !is_text(model) || !is_text(program) {
        return head.into_bytes();
    }
    [
        head.as_bytes(),
        b"by the model:\n",
        &whole_lines(model),
        b"by the program:\n",
        &whole_lines(program),
    ]
    .concat()
}

/// The text, its last line ended.
fn whole_lines(text: &[u8]) -> Vec<u8> {
    let mut lines = text.to_vec();
    if lines.last().is_some_and(|&last| last != b'\n') {
        lines.push(b'\n');
    }
    lines
}

fn is_text(bytes: &[u8]) -> bool {
    bytes
        .iter()
        .all(|&byte| byte == b'\n' || (b' '..=b'~').contains(&byte))
}
