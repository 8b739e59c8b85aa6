//! `stack`: measures the stack that each function of the library takes, on the deepest files known and on many more.
//!
//! A call runs in a thread of its own whose stack is painted before. What lies between the thread's first frame and
//! the lowest place that lost its paint was taken. The wrapper of `library.rs` is measured along, some sixty bytes;
//! what the lowest frame of all leaves unwritten at its end is not seen, less than a frame of some hundred bytes.
//! Prints the most that each function took, and fails unless that is below the header's TELDYZHOM_STACK_BYTES and
//! README.md states the same figure; the reader of texts has a bound of its own besides.

mod painted;

use painted::Stack;
use std::path::Path;
use std::process::ExitCode;
use workbench::checker::{judge_pack, pairs, PACK_LIMIT, RULE_LIMIT};
use workbench::encode::{certificate_bytes, pack_bytes};
use workbench::files::read;
use workbench::generate::packs::{dense, dense_in_two, Base};
use workbench::generate::{case, Case};
use workbench::implementation::{Checker, Implementation};
use workbench::library::LIBRARY;
use workbench::random::Random;
use workbench::report::{self, say, Arguments, Failure};
use workbench::{slow, slow_texts};

const HEADER: &str = include_str!("../../../../include/teldyzhom.h");
const README: &str = include_str!("../../../../README.md");

/// The bound for reading a text alone, below the one for all.
const READ_TEXT_LIMIT: usize = 32_768;
/// How many generated cases are asked.
const SEEDS: u64 = 2_000;
/// A list of so many bytes always suffices.
const LIST_ENOUGH: usize = 2_048 * 8;

type Outcome<T> = Result<T, Failure>;

fn main() -> ExitCode {
    report::run("stack", &[], measure_all)
}

fn measure_all(arguments: Arguments) -> Outcome<()> {
    if !arguments.words.is_empty() {
        return Err(Failure::Usage(format!("{} words; none is wanted", arguments.words.len())));
    }
    let mut stack = Stack::new();
    let mut most = Most::default();
    for file in slow_files().into_iter().chain(deep_files()).chain(example_files()?) {
        most.ask(&mut stack, &file)?;
    }
    for (name, text) in hostile_texts().into_iter().chain(examples(".trs")?) {
        most.read_text(&mut stack, &name, &text, PACK_LIMIT)?;
    }
    for seed in 1..=SEEDS {
        most.ask(&mut stack, &generated(seed))?;
    }
    most.print();
    let limit = stated_limit()?;
    most.held_to(limit)?;
    say(format_args!("each below the {} bytes that the header and README.md state", with_commas(limit)));
    most.reading_held_to(READ_TEXT_LIMIT)?;
    say(format_args!("teldyzhom_read_text below {}", with_commas(READ_TEXT_LIMIT)));
    Ok(())
}

fn refused(why: impl Into<String>) -> Failure {
    Failure::Refused(why.into())
}

fn could_not_run(why: impl Into<String>) -> Failure {
    Failure::CouldNotRun(why.into())
}

// ---------------------------------------------------------------- the figure

/// The header's figure, which README.md must state too.
fn stated_limit() -> Outcome<usize> {
    let figure = HEADER.lines().find_map(|line| line.strip_prefix("#define TELDYZHOM_STACK_BYTES "));
    let figure = figure.and_then(|figure| figure.parse().ok());
    let limit = figure.ok_or_else(|| refused("include/teldyzhom.h does not state TELDYZHOM_STACK_BYTES"))?;
    let written = with_commas(limit);
    if README.contains(&written) {
        Ok(limit)
    } else {
        Err(refused(format!("README.md does not state the {written} bytes of include/teldyzhom.h")))
    }
}

/// 40960 is 40,960.
fn with_commas(number: usize) -> String {
    match number / 1_000 {
        0 => number.to_string(),
        thousands => format!("{},{:03}", with_commas(thousands), number % 1_000),
    }
}

// ---------------------------------------------------------------- files

/// What the library is asked, and the check's number where it is known.
struct File {
    name: String,
    case: Case,
    number: Option<u32>,
}

/// The slowest files of the benchmark, and the most pairs.
fn slow_files() -> Vec<File> {
    let bases = [
        ("arcs, walks of 2 nodes", slow::arcs(2)),
        ("arcs, walks of 6 nodes", slow::arcs(6)),
        ("arcs, walks of 30 nodes", slow::arcs(30)),
        ("few arcs", slow::few_arcs(8)),
        ("meetings that agree", slow::agreeing(RULE_LIMIT)),
        ("meetings that clash", slow::clashing()),
        ("chains, weights differ", slow::chains(437, true)),
        ("chains, weights equal", slow::chains(437, false)),
        ("wide", slow::wide(384)),
        ("brink", slow::brink(335)),
        ("eight weightings", slow::weightings(8)),
        ("2,047 pairs", dense(&mut Random::new(1), 1)),
        ("2,048 pairs", dense(&mut Random::new(1), 0)),
        ("2,047 pairs, two weightings", dense_in_two(&mut Random::new(4), 1)),
    ];
    bases.into_iter().map(|(name, base)| file(name.to_string(), &base, None)).collect()
}

fn deep_files() -> Vec<File> {
    slow::deep().into_iter().map(|deep| file(deep.name, &deep.base, Some(deep.number))).collect()
}

fn file(name: String, base: &Base, number: Option<u32>) -> File {
    File { name, case: asked(pack_bytes(&base.pack), certificate_bytes(&base.components)), number }
}

/// Arcs between the first pair and the last; where there are none, the question names no pair.
fn asked(pack: Vec<u8>, certificate: Vec<u8>) -> Case {
    let all = judge_pack(&pack).map(|pack| pairs(&pack)).unwrap_or_default();
    let (first, last) = (all.first().copied().unwrap_or_default(), all.last().copied().unwrap_or_default());
    let questions = [(first, last), (last, first), (first, first)];
    let questions = questions.map(|(from, to)| [from.0, from.1, to.0, to.1].map(u32::from)).to_vec();
    Case { pack, certificate, room: LIST_ENOUGH, questions, texts: Vec::new() }
}

/// Each pack of the examples with each certificate, whether or not they belong together.
fn example_files() -> Outcome<Vec<File>> {
    let packs = examples(".pack")?;
    let certificates = examples(".cert")?;
    let together = |(pack_name, pack): &(String, Vec<u8>)| {
        let of_pack = |(name, certificate): &(String, Vec<u8>)| File {
            name: format!("{pack_name} with {name}"),
            case: asked(pack.clone(), certificate.clone()),
            number: None,
        };
        certificates.iter().map(of_pack).collect::<Vec<File>>()
    };
    Ok(packs.iter().flat_map(together).collect())
}

/// The shipped files whose names end so, at least one.
fn examples(end: &str) -> Outcome<Vec<(String, Vec<u8>)>> {
    let folder = Path::new(env!("CARGO_MANIFEST_DIR")).join("../examples");
    let failed = |why: std::io::Error| could_not_run(format!("examples: {why}"));
    let mut files = Vec::new();
    for entry in std::fs::read_dir(&folder).map_err(failed)? {
        let entry = entry.map_err(failed)?;
        let name = entry.file_name().to_string_lossy().into_owned();
        if name.ends_with(end) {
            files.push((name, read(entry.path())?));
        }
    }
    files.sort();
    if files.is_empty() {
        return Err(could_not_run(format!("examples: no file ends in {end}")));
    }
    Ok(files)
}

/// The deepest texts, and those with the most names.
fn hostile_texts() -> Vec<(String, Vec<u8>)> {
    let names = slow_texts::many_names().into_iter().map(|(name, text)| (name.to_string(), text));
    let overfull = [("more names than the table holds".to_string(), slow_texts::overfull())];
    slow_texts::deep().into_iter().chain(names).chain(overfull).collect()
}

fn generated(seed: u64) -> File {
    File { name: format!("case {seed}"), case: case(seed), number: None }
}

// ---------------------------------------------------------------- the most

/// The most bytes that a function took, and on which file.
#[derive(Default)]
struct Record {
    bytes: usize,
    name: String,
}

#[derive(Default)]
struct Most {
    check: Record,
    list: Record,
    arc: Record,
    read_text: Record,
}

impl Record {
    fn note(&mut self, bytes: usize, name: &str) {
        if bytes > self.bytes {
            *self = Record { bytes, name: name.to_string() };
        }
    }

    fn held_to(&self, limit: usize, function: &str) -> Outcome<()> {
        if self.bytes < limit {
            Ok(())
        } else {
            Err(refused(format!("teldyzhom_{function} takes not less than {}", with_commas(limit))))
        }
    }
}

impl Most {
    fn ask(&mut self, stack: &mut Stack, file: &File) -> Outcome<()> {
        let case = &file.case;
        let (bytes, number) = stack.measure(|| LIBRARY.check(&case.pack, &case.certificate))?;
        if let Some(expected) = file.number.filter(|expected| *expected != number) {
            return Err(refused(format!("{}: the check says {number}, not {expected}", file.name)));
        }
        self.check.note(bytes, &file.name);
        let mut list = vec![0; case.room];
        self.list.note(stack.measure(|| LIBRARY.list(&case.pack, &mut list))?.0, &file.name);
        for question in &case.questions {
            self.arc.note(stack.measure(|| LIBRARY.arc(&case.pack, *question))?.0, &file.name);
        }
        case.texts.iter().try_for_each(|asked| self.read_text(stack, &file.name, &asked.text, asked.room))
    }

    /// The number must be the plain reader's, so that no text is read by half.
    fn read_text(&mut self, stack: &mut Stack, name: &str, text: &[u8], room: usize) -> Outcome<()> {
        let mut pack = vec![0; room];
        let (bytes, answer) = stack.measure(|| LIBRARY.read_text(text, &mut pack))?;
        let expected = Checker.read_text(text, &mut pack);
        if answer != expected {
            return Err(refused(format!("{name}: the text's answer is {answer:?}, not {expected:?}")));
        }
        self.read_text.note(bytes, name);
        Ok(())
    }

    fn each(&self) -> [(&str, &Record); 4] {
        [("check", &self.check), ("list", &self.list), ("arc", &self.arc), ("read_text", &self.read_text)]
    }

    fn print(&self) {
        for (function, Record { bytes, name }) in self.each() {
            say(format_args!("teldyzhom_{function}: {} bytes of stack at most, on {name}", with_commas(*bytes)));
        }
    }

    fn held_to(&self, limit: usize) -> Outcome<()> {
        self.each().iter().try_for_each(|(function, record)| record.held_to(limit, function))
    }

    fn reading_held_to(&self, limit: usize) -> Outcome<()> {
        self.read_text.held_to(limit, "read_text")
    }
}
