//! What all programs share: how they take their arguments, print, and end.
//!
//! A failure is never an answer: it is one line on standard error and a status other than 0.

use crate::text::digits;
use std::fmt::Display;
use std::io::{self, ErrorKind, Write};
use std::process::{exit, ExitCode};

/// The status after a difference, nothing found, or a text refused.
pub const REFUSED: u8 = 1;
/// The status if the program could not run: wrong arguments, or files that cannot be read or written.
pub const COULD_NOT_RUN: u8 = 2;

/// Why a program does not end well.
#[derive(Debug, PartialEq, Eq)]
pub enum Failure {
    /// It ran, and its answer is no: a difference, nothing found, a text refused.
    Refused(String),
    /// It could not run.
    CouldNotRun(String),
    /// Its arguments are not understood.
    Usage(String),
}

impl Failure {
    /// The same failure in other words.
    pub fn told(self, tell: impl FnOnce(String) -> String) -> Failure {
        match self {
            Failure::Refused(why) => Failure::Refused(tell(why)),
            Failure::CouldNotRun(why) => Failure::CouldNotRun(tell(why)),
            Failure::Usage(why) => Failure::Usage(tell(why)),
        }
    }
}

/// What a program was called with.
pub struct Arguments {
    flags: Vec<String>,
    pub words: Vec<String>,
}

impl Arguments {
    pub fn has(&self, flag: &str) -> bool {
        self.flags.iter().any(|other| other == flag)
    }

    /// Words that start with - must be one of the known flags, each given once.
    fn read(words: Vec<String>, known: &[&str]) -> Result<Arguments, Failure> {
        let (flags, words): (Vec<String>, Vec<String>) = words.into_iter().partition(|word| word.starts_with('-'));
        for (index, flag) in flags.iter().enumerate() {
            if !known.contains(&flag.as_str()) || flags[..index].contains(flag) {
                return Err(Failure::Usage(format!("{flag:?} is no flag here, or stands twice")));
            }
        }
        Ok(Arguments { flags, words })
    }
}

/// Runs a program: its usage, its flags, and what it does with its arguments.
pub fn run(usage: &str, flags: &[&str], program: impl FnOnce(Arguments) -> Result<(), Failure>) -> ExitCode {
    let words: Result<Vec<String>, _> = std::env::args_os().skip(1).map(|word| word.into_string()).collect();
    let done = match words {
        Ok(words) if words == ["--help"] => {
            say(usage);
            Ok(())
        }
        Ok(words) => Arguments::read(words, flags).and_then(program),
        Err(word) => Err(Failure::Usage(format!("{word:?} is no UTF-8"))),
    };
    match done {
        Ok(()) => ExitCode::SUCCESS,
        Err(failure) => end(usage, failure),
    }
}

fn end(usage: &str, failure: Failure) -> ExitCode {
    let (status, why) = match failure {
        Failure::Refused(why) => (REFUSED, why),
        Failure::CouldNotRun(why) => (COULD_NOT_RUN, why),
        Failure::Usage(why) => (COULD_NOT_RUN, format!("{why}; usage: {usage}")),
    };
    complain(&why);
    ExitCode::from(status)
}

/// An argument that is a number from `least` to `greatest`.
pub fn number(word: &str, least: u64, greatest: u64) -> Result<u64, Failure> {
    let number = digits(word).filter(|number| (least..=greatest).contains(number));
    number.ok_or_else(|| Failure::Usage(format!("{word:?} is no number from {least} to {greatest}")))
}

/// One line on standard output.
pub fn say(line: impl Display) {
    print(format_args!("{line}\n"));
}

/// Prints at once; if that fails the program ends, since nobody would see its answer.
pub fn print(text: impl Display) {
    let mut output = io::stdout().lock();
    if let Err(why) = write!(output, "{text}").and_then(|()| output.flush()) {
        // Who closed the pipe knows why.
        if why.kind() != ErrorKind::BrokenPipe {
            complain(&format!("standard output: {why}"));
        }
        exit(i32::from(COULD_NOT_RUN));
    }
}

/// One line on standard error; nothing more can be done if that fails too.
fn complain(why: &str) {
    let _ = writeln!(io::stderr(), "{why}");
}
