//! A folder of small packs with certificates, and what the loader is to say of them.

use crate::encode::{certificate_bytes, pack_bytes};
use crate::files::write;
use crate::generate::packs::{guided, seeded, Base, Size};
use crate::generate::spoil::spoil_base;
use crate::implementation::{Checker, Implementation};
use crate::random::Random;
use crate::report::Failure;
use std::path::Path;
use std::time::Duration;

/// Percent of the packs that are spoilt: where all are accepted, answers in a wrong order are not seen.
const SPOILT: usize = 10;

/// A pack and a certificate, their names in the folder, and the plain checker's answer.
pub struct Entry {
    pub pack_name: String,
    pub certificate_name: String,
    pub pack: Vec<u8>,
    pub certificate: Vec<u8>,
    pub answer: u32,
}

impl Entry {
    /// Names and bytes of both.
    pub fn files(&self) -> [(&str, &[u8]); 2] {
        [(&self.pack_name, &self.pack), (&self.certificate_name, &self.certificate)]
    }
}

/// So many typical packs, always the same.
pub fn entries(count: usize) -> Vec<Entry> {
    seeded(count, mostly_good).enumerate().map(|(number, base)| entry(number, &base)).collect()
}

fn mostly_good(random: &mut Random) -> Base {
    let mut base = guided(random, Size::Typical);
    if random.chance(SPOILT) {
        let aim = *random.pick(&[8, 9, 12, 13]);
        spoil_base(random, &mut base, aim);
    }
    base
}

fn entry(number: usize, base: &Base) -> Entry {
    let (pack, certificate) = (pack_bytes(&base.pack), certificate_bytes(&base.components));
    let answer = Checker.check(&pack, &certificate);
    let (pack_name, certificate_name) = (format!("{number:05}.pack"), format!("{number:05}.cert"));
    Entry { pack_name, certificate_name, pack, certificate, answer }
}

/// Writes the files of all.
pub fn write_files(folder: &Path, entries: &[Entry]) -> Result<(), Failure> {
    entries.iter().flat_map(Entry::files).try_for_each(|(name, bytes)| write(folder.join(name), bytes))
}

/// The list that `check --list` takes: both names a line.
pub fn list(entries: &[Entry]) -> String {
    entries.iter().map(|entry| format!("{}\t{}\n", entry.pack_name, entry.certificate_name)).collect()
}

// ---------------------------------------------------------------- what the loader is to say

/// A line that is due, and what it is about.
pub struct Line<'a> {
    about: &'a str,
    words: String,
}

/// What `check` says of one.
pub fn answer(entry: &Entry) -> Line<'_> {
    Line { about: &entry.pack_name, words: words(entry.answer) }
}

fn words(answer: u32) -> String {
    match answer {
        0 => "accepted".to_string(),
        number => format!("refused {number}"),
    }
}

/// What `check --list` says of all: a line each, and the counts.
pub fn listed(entries: &[Entry]) -> Vec<Line<'_>> {
    let line = |entry| {
        let Line { about, words } = answer(entry);
        Line { about, words: format!("{about} {words}") }
    };
    let accepted = entries.iter().filter(|entry| entry.answer == 0).count();
    let counts = format!("accepted {accepted}, refused {}, could not be read 0", entries.len() - accepted);
    entries.iter().map(line).chain([Line { about: "the counts", words: counts }]).collect()
}

/// Holds what was said to the lines that are due; more or fewer lines are no answer.
pub fn hold(said: &str, due: &[Line]) -> Result<(), Failure> {
    let lines: Vec<&str> = said.lines().collect();
    if lines.len() != due.len() || !said.ends_with('\n') {
        return Err(Failure::CouldNotRun(format!("{} whole lines, not {}", said.matches('\n').count(), due.len())));
    }
    match lines.iter().zip(due).find(|(line, due)| **line != due.words) {
        Some((line, Line { about, words })) => Err(Failure::Refused(format!("{about}: {line:?}, not {words:?}"))),
        None => Ok(()),
    }
}

/// The middle one of some times, at least one.
pub fn middle(mut times: Vec<Duration>) -> Duration {
    times.sort_unstable();
    times[times.len() / 2]
}
