//! The shipped examples: where they stand, and the tables of expected answers.

use crate::files::{read, read_text};
use crate::report::Failure;
use crate::text::digits;
use std::path::{Path, PathBuf};

/// What the check says of packs and certificates.
const CHECKS: &str = "expected.txt";

/// A pack, a certificate and what the check says of them.
pub struct Check {
    /// The words of its line.
    pub line: Vec<String>,
    pub pack: Vec<u8>,
    pub certificate: Vec<u8>,
    pub answer: u32,
}

/// The folder `examples` beside this package.
pub fn default_folder() -> PathBuf {
    Path::new(env!("CARGO_MANIFEST_DIR")).join("../examples")
}

/// All of them, with their files read.
pub fn checks(folder: &Path) -> Result<Vec<Check>, Failure> {
    table(folder, CHECKS)?.into_iter().map(|line| check(folder, line)).collect()
}

/// `pack certificate answer`
fn check(folder: &Path, line: Vec<String>) -> Result<Check, Failure> {
    let [pack, certificate, answer] = &line[..] else {
        return Err(odd_line(CHECKS, &line));
    };
    let (pack, certificate) = (read(folder.join(pack))?, read(folder.join(certificate))?);
    let answer = number(answer)?;
    Ok(Check { line, pack, certificate, answer })
}

/// The lines of a table, as words.
pub fn table(folder: &Path, name: &str) -> Result<Vec<Vec<String>>, Failure> {
    let text = read_text(folder.join(name))?;
    let lines = text.lines().filter(|line| !line.starts_with(';') && !line.trim().is_empty());
    let lines: Vec<Vec<String>> = lines.map(|line| line.split_whitespace().map(str::to_string).collect()).collect();
    if lines.is_empty() {
        return Err(Failure::CouldNotRun(format!("{name}: no line to hold anything to")));
    }
    Ok(lines)
}

pub fn odd_line(name: &str, line: &[String]) -> Failure {
    Failure::CouldNotRun(format!("{name}: {:?} is not understood", line.join(" ")))
}

pub fn number(word: &str) -> Result<u32, Failure> {
    digits(word).ok_or_else(|| Failure::CouldNotRun(format!("{word:?} is no number in a table")))
}
