//! Prints how three ways to check a folder of small packs compare, as ratios measured in one run.
//!
//! A process a pack by the script, a process a pack by the program, and one process for all; beside these, where the
//! time of one process goes: opening the files, opening and reading them, and checking them from memory by the library.
//! `folder SCRIPT PROGRAM [COUNT]`: `./bench --folder [COUNT]` builds both and names them.
//! The answers of every run are held to the plain checker's, first those of a run of each way that is not timed.

use std::fs::File;
use std::hint::black_box;
use std::io;
use std::path::Path;
use std::process::{Command, ExitCode, Stdio};
use std::time::{Duration, Instant};
use workbench::checker::PACK_LIMIT;
use workbench::files::{absolute, read_into, read_text, write, Temporary};
use workbench::folder::{answer, entries, hold, list, listed, middle, write_files, Entry, Line};
use workbench::implementation::Implementation;
use workbench::library::LIBRARY;
use workbench::report::{number, run, say, Arguments, Failure};

const USAGE: &str =
    "folder SCRIPT PROGRAM [COUNT], 1 to 100000, 10000 by default; ./bench --folder [COUNT] names the two";
const COUNT: u64 = 10_000;
const MOST: u64 = 100_000;
const ROUNDS: usize = 3;
/// The script takes too long for all packs.
const SAMPLE: usize = 100;

const LIST: &str = "list";
const ANSWERS: &str = "answers";
const ERRORS: &str = "errors";

type Outcome<T> = Result<T, Failure>;

fn main() -> ExitCode {
    run(USAGE, &[], folder)
}

fn folder(arguments: Arguments) -> Outcome<()> {
    let (tools, count) = match &arguments.words[..] {
        [script, program] => ([script, program], COUNT),
        [script, program, count] => ([script, program], number(count, 1, MOST)?),
        words => return Err(Failure::Usage(format!("{} words; two or three are wanted", words.len()))),
    };
    let [script, program] = tools.map(absolute);
    let (script, program, entries) = (script?, program?, entries(count as usize));
    // Printing may end the program: the folder is gone by then.
    let rows = in_folder(&entries, || ratios(&ways(&script, &program, &entries)))?;
    let accepted = entries.iter().filter(|entry| entry.answer == 0).count();
    let packs = format!("{accepted} accepted, {} refused", entries.len() - accepted);
    say(format_args!("time of checking a folder in times of one process; its packs: {packs}\n"));
    rows.iter().for_each(say);
    Ok(())
}

/// Makes the folder for as long as that runs in it: names are then as short as one who stands there has them.
fn in_folder<T>(entries: &[Entry], work: impl FnOnce() -> Outcome<T>) -> Outcome<T> {
    let folder = Temporary::new("teldyzhom-folder")?;
    write_files(folder.path(), entries)?;
    std::env::set_current_dir(folder.path()).map_err(could_not_run)?;
    write(LIST, list(entries).as_bytes())?;
    work()
}

fn could_not_run(why: io::Error) -> Failure {
    Failure::CouldNotRun(why.to_string())
}

// ---------------------------------------------------------------- measuring

/// A way through the folder, or through a part of it that stands for `scale` times as much.
struct Way<'a> {
    name: String,
    scale: f64,
    run: Run<'a>,
}

/// Goes the way once and answers the time.
type Run<'a> = Box<dyn Fn() -> Outcome<Duration> + 'a>;

/// The place of the way that is the unit.
const ONE_PROCESS: usize = 2;

fn ways<'a>(script: &'a Path, program: &'a Path, entries: &'a [Entry]) -> Vec<Way<'a>> {
    let all: Vec<&Entry> = entries.iter().collect();
    let sample = spread(entries);
    let scale = entries.len() as f64 / sample.len() as f64;
    let by_script = format!("the script, a process a pack (a sample of {}, scaled)", sample.len());
    let way = |name: &str, run| Way { name: name.to_string(), scale: 1.0, run };
    vec![
        Way { scale, ..way(&by_script, Calls::of_each(script, &sample).runs()) },
        way("the program, a process a pack", Calls::of_each(program, &all).runs()),
        way("one process", Calls::of_one_process(program, entries).runs()),
        way("  opening", Box::new(|| open_all(entries))),
        way("  opening and reading", Box::new(|| read_all(entries))),
        way("  checking", Box::new(|| check_all(entries))),
    ]
}

/// At most a sample of them, from all over the folder.
fn spread(entries: &[Entry]) -> Vec<&Entry> {
    let count = entries.len().min(SAMPLE);
    (0..count).map(|at| &entries[at * entries.len() / count]).collect()
}

/// A line a way.
fn ratios(ways: &[Way]) -> Outcome<Vec<String>> {
    let times = times(ways)?;
    let line = |(way, time): (&Way, &f64)| {
        let ratio = time / times[ONE_PROCESS];
        let places = if ratio < 100.0 { 2 } else { 0 };
        format!("{:<56}{ratio:>8.places$}", way.name)
    };
    Ok(ways.iter().zip(&times).map(line).collect())
}

/// The middle one of some times of each, taken in turns so that all meet the same weather.
fn times(ways: &[Way]) -> Outcome<Vec<f64>> {
    // All answers are right before anything is timed.
    ways.iter().try_for_each(|way| timed(way).map(drop))?;
    let mut times = vec![Vec::new(); ways.len()];
    for _ in 0..ROUNDS {
        for (way, times) in ways.iter().zip(&mut times) {
            times.push(timed(way)?);
        }
    }
    Ok(ways.iter().zip(times).map(|(way, times)| middle(times).as_secs_f64() * way.scale).collect())
}

fn timed(way: &Way) -> Outcome<Duration> {
    (way.run)().map_err(|failure| failure.told(|why| format!("{}: {why}", way.name.trim_start())))
}

// ---------------------------------------------------------------- processes

/// Calls of a tool, one after the other, with the status that each is to have and all lines that are due.
struct Calls<'a> {
    tool: &'a Path,
    arguments: Vec<[&'a str; 3]>,
    statuses: Vec<i32>,
    due: Vec<Line<'a>>,
}

impl<'a> Calls<'a> {
    fn of_each(tool: &'a Path, entries: &[&'a Entry]) -> Calls<'a> {
        let arguments = entries.iter().map(|entry| ["check", &entry.pack_name, &entry.certificate_name]).collect();
        let statuses = entries.iter().copied().map(status).collect();
        let due = entries.iter().map(|entry| answer(entry)).collect();
        Calls { tool, arguments, statuses, due }
    }

    fn of_one_process(tool: &'a Path, entries: &'a [Entry]) -> Calls<'a> {
        let greatest = entries.iter().map(status).max().unwrap_or(0);
        Calls { tool, arguments: vec![["check", "--list", LIST]], statuses: vec![greatest], due: listed(entries) }
    }

    fn runs(self) -> Run<'a> {
        Box::new(move || self.run().map_err(with_complaint))
    }

    /// What the tool says goes to files: a reader at a pipe would run beside it and take turns with it.
    fn run(&self) -> Outcome<Duration> {
        let output = (create(ANSWERS)?, create(ERRORS)?);
        let start = Instant::now();
        let statuses: Vec<i32> = self.arguments.iter().map(|each| self.call(each, &output)).collect::<Outcome<_>>()?;
        let time = start.elapsed();
        hold(&read_text(ANSWERS)?, &self.due)?;
        if statuses != self.statuses {
            return Err(Failure::Refused("a status is not that of the answer".to_string()));
        }
        Ok(time)
    }

    /// Its status; one beside 0 and 1 is a failure.
    fn call(&self, arguments: &[&str], (answers, errors): &(File, File)) -> Outcome<i32> {
        let mut command = Command::new(self.tool);
        command.args(arguments).stdin(Stdio::null());
        command.stdout(answers.try_clone().map_err(could_not_run)?).stderr(errors.try_clone().map_err(could_not_run)?);
        let status = command.status().map_err(could_not_run)?;
        let failed = || Failure::CouldNotRun(format!("{}: {status}", arguments.join(" ")));
        status.code().filter(|code| [0, 1].contains(code)).ok_or_else(failed)
    }
}

/// The status that tells an entry's answer.
fn status(entry: &Entry) -> i32 {
    i32::from(entry.answer != 0)
}

fn create(name: &str) -> Outcome<File> {
    File::create(name).map_err(could_not_run)
}

/// A tool that fails may have said why.
fn with_complaint(failure: Failure) -> Failure {
    let said = read_text(ERRORS).unwrap_or_default();
    match (failure, said.lines().last()) {
        (Failure::CouldNotRun(why), Some(said)) => {
            Failure::CouldNotRun(format!("{why}; standard error ends in {said:?}"))
        }
        (failure, _) => failure,
    }
}

// ---------------------------------------------------------------- within one process

fn open_all(entries: &[Entry]) -> Outcome<Duration> {
    let start = Instant::now();
    for (name, _) in entries.iter().flat_map(Entry::files) {
        drop(black_box(File::open(name).map_err(could_not_run)?));
    }
    Ok(start.elapsed())
}

fn read_all(entries: &[Entry]) -> Outcome<Duration> {
    let mut buffer = [0; PACK_LIMIT + 1];
    let start = Instant::now();
    for (name, bytes) in entries.iter().flat_map(Entry::files) {
        if read_into(name, &mut buffer)? != bytes.len() {
            return Err(Failure::CouldNotRun(format!("{name} is not as it was written")));
        }
    }
    Ok(start.elapsed())
}

fn check_all(entries: &[Entry]) -> Outcome<Duration> {
    let start = Instant::now();
    for entry in entries {
        let number = LIBRARY.check(black_box(&entry.pack), black_box(&entry.certificate));
        if number != entry.answer {
            return Err(Failure::Refused(format!("{}: {number}, not {}", entry.pack_name, entry.answer)));
        }
    }
    Ok(start.elapsed())
}
