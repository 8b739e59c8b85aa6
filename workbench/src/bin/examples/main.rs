//! `check-examples [--write] [FOLDER]`: assembles every example's text anew, compares it with the shipped
//! bytes (or writes them), and holds all implementations to the expected answers.
//!
//! The texts that `loose.txt` names are wrong on purpose: strict mode must refuse them, loose mode assembles them.
//! Each good pack has a solver's text, which must give the same pack but for the numbers of symbols and variables.

mod texts;

use std::path::{Path, PathBuf};
use std::process::ExitCode;
use workbench::checker::PAIR_LIMIT;
use workbench::examples::{self, default_folder, number, odd_line, table};
use workbench::files::{read, read_text, write};
use workbench::implementation::{all, Implementation};
use workbench::report::{run, say, Arguments, Failure};
use workbench::text::{assemble_certificate, assemble_pack, disassemble_certificate, disassemble_pack, mode_of, Mode};

type Answer<T> = Result<T, Failure>;

const USAGE: &str = "check-examples [--write] [FOLDER]";
const WRITE: &str = "--write";
/// The texts that only loose mode assembles.
const LOOSE_LIST: &str = "loose.txt";
/// No lent list is larger.
const ROOM_LIMIT: u32 = 1 << 20;

fn main() -> ExitCode {
    run(USAGE, &[WRITE], check_examples)
}

fn check_examples(arguments: Arguments) -> Answer<()> {
    let folder = match &arguments.words[..] {
        [] => default_folder(),
        [folder] => PathBuf::from(folder),
        words => return Err(Failure::Usage(format!("{} words; at most one is wanted", words.len()))),
    };
    let files = assemble_all(&folder, arguments.has(WRITE))?;
    if arguments.has(WRITE) {
        texts::write_all(&folder)?;
    }
    let solver_texts = texts::count(&folder)?;
    let mut asked = 0;
    for implementation in all() {
        asked += checks(&folder, implementation.as_ref())?;
        asked += lists(&folder, implementation.as_ref())?;
        asked += arcs(&folder, implementation.as_ref())?;
        asked += pair_files(&folder, implementation.as_ref())?;
        asked += texts::ask(&folder, implementation.as_ref())?;
    }
    let names: Vec<&str> = all().iter().map(|one| one.name()).collect();
    let files = format!("{files} files as their texts say, {solver_texts} solvers' texts");
    say(format_args!("{files}; {asked} answers of {} as expected", names.join(", ")));
    Ok(())
}

/// Every `.pack.txt` and `.cert.txt`; answers how many.
fn assemble_all(folder: &Path, anew: bool) -> Answer<usize> {
    let mut loose = loose_texts(folder)?;
    let mut count = 0;
    for name in names(folder)? {
        let Some(file) = name.strip_suffix(".txt").filter(|file| kind(file).is_some()) else {
            continue;
        };
        let listed = loose.iter().position(|other| *other == name).map(|at| loose.remove(at));
        let text = read_text(folder.join(&name))?;
        let bytes = if listed.is_some() { assemble_wrong(&name, &text) } else { assemble(&name, &text, Mode::Strict) }?;
        if anew {
            write(folder.join(file), &bytes)?;
        }
        compare(folder, file, &bytes)?;
        count += 1;
    }
    match loose.first() {
        None => Ok(count),
        Some(name) => Err(Failure::CouldNotRun(format!("{LOOSE_LIST}: {name:?} is no text here, or stands twice"))),
    }
}

/// `pack` or `cert`, from the name of a file or of its text.
fn kind(name: &str) -> Option<&str> {
    let (_, kind) = name.strip_suffix(".txt").unwrap_or(name).rsplit_once('.')?;
    ["pack", "cert"].contains(&kind).then_some(kind)
}

fn assemble(name: &str, text: &str, mode: Mode) -> Answer<Vec<u8>> {
    let bytes = if kind(name) == Some("pack") { assemble_pack(text, mode) } else { assemble_certificate(text, mode) };
    bytes.map_err(|why| Failure::Refused(format!("{name}: {why}")))
}

/// A text that is wrong on purpose.
fn assemble_wrong(name: &str, text: &str) -> Answer<Vec<u8>> {
    match assemble(name, text, Mode::Strict) {
        Ok(_) => Err(Failure::Refused(format!("{name}: strict mode takes it though {LOOSE_LIST} names it"))),
        Err(_) => assemble(name, text, Mode::Loose),
    }
}

/// The shipped bytes are the assembled ones, and their disassembly gives them back.
fn compare(folder: &Path, file: &str, bytes: &[u8]) -> Answer<()> {
    if read(folder.join(file))? != bytes {
        return Err(Failure::Refused(format!("{file}: the shipped bytes are not those of its text")));
    }
    let is_pack = kind(file) == Some("pack");
    let text = if is_pack { disassemble_pack(bytes) } else { disassemble_certificate(bytes, &[]) };
    if assemble(file, &text, mode_of(&text))? == bytes {
        Ok(())
    } else {
        Err(Failure::Refused(format!("{file}: its disassembly is another file")))
    }
}

/// The names in a folder, all of them: what cannot be read is not passed over.
fn names(folder: &Path) -> Answer<Vec<String>> {
    let failure = |why: &dyn std::fmt::Display| Failure::CouldNotRun(format!("{}: {why}", folder.display()));
    let mut names = Vec::new();
    for entry in std::fs::read_dir(folder).map_err(|why| failure(&why))? {
        let name = entry.map_err(|why| failure(&why))?.file_name();
        names.push(name.into_string().map_err(|name| failure(&format!("{name:?} is no UTF-8")))?);
    }
    names.sort();
    Ok(names)
}

/// The names in the list, one a line.
fn loose_texts(folder: &Path) -> Answer<Vec<String>> {
    let lines = table(folder, LOOSE_LIST)?;
    lines
        .into_iter()
        .map(|line| match &line[..] {
            [name] => Ok(name.clone()),
            _ => Err(odd_line(LOOSE_LIST, &line)),
        })
        .collect()
}

fn room(word: &str) -> Answer<usize> {
    match number(word)? {
        room if room <= ROOM_LIMIT => Ok(room as usize),
        room => Err(Failure::CouldNotRun(format!("{room} bytes is no room; at most {ROOM_LIMIT} is wanted"))),
    }
}

fn checks(folder: &Path, implementation: &dyn Implementation) -> Answer<usize> {
    let checks = examples::checks(folder)?;
    for check in &checks {
        let got = implementation.check(&check.pack, &check.certificate);
        expect(implementation, &check.line, check.answer, got)?;
    }
    Ok(checks.len())
}

/// `pack room answer count`
fn lists(folder: &Path, implementation: &dyn Implementation) -> Answer<usize> {
    let lines = table(folder, "expected-lists.txt")?;
    for line in &lines {
        let [pack, size, answer, count] = &line[..] else {
            return Err(odd_line("expected-lists.txt", line));
        };
        let mut list = vec![0xA7; room(size)?];
        let got = implementation.list(&read(folder.join(pack))?, &mut list);
        expect(implementation, line, (number(answer)?, number(count)?), got)?;
    }
    Ok(lines.len())
}

/// `pack rule place other-rule other-place answer yes|no`
fn arcs(folder: &Path, implementation: &dyn Implementation) -> Answer<usize> {
    let lines = table(folder, "expected-arcs.txt")?;
    for line in &lines {
        let [pack, rule, place, other_rule, other_place, answer, yes] = &line[..] else {
            return Err(odd_line("expected-arcs.txt", line));
        };
        let question = [number(rule)?, number(place)?, number(other_rule)?, number(other_place)?];
        let got = implementation.arc(&read(folder.join(pack))?, question);
        let yes = match yes.as_str() {
            "yes" => 1,
            "no" => 0,
            _ => return Err(odd_line("expected-arcs.txt", line)),
        };
        expect(implementation, line, (number(answer)?, yes), got)?;
    }
    Ok(lines.len())
}

/// `NAME.pairs` is what the program prints for `NAME.pack`.
fn pair_files(folder: &Path, implementation: &dyn Implementation) -> Answer<usize> {
    let mut count = 0;
    for name in names(folder)? {
        let Some(stem) = name.strip_suffix(".pairs") else {
            continue;
        };
        let pack = read(folder.join(format!("{stem}.pack")))?;
        expect(
            implementation,
            std::slice::from_ref(&name),
            read_text(folder.join(&name))?,
            printed(implementation, &pack),
        )?;
        count += 1;
    }
    Ok(count)
}

/// One line a pair, or the refusal.
fn printed(implementation: &dyn Implementation, pack: &[u8]) -> String {
    let mut list = vec![0; usize::from(PAIR_LIMIT) * 8];
    let (number, count) = implementation.list(pack, &mut list);
    if number != 0 {
        return format!("refused {number}\n");
    }
    let field = |record: &[u8], at: usize| u16::from_le_bytes([record[at], record[at + 1]]);
    let records = list.chunks(8).take(count as usize);
    records.map(|record| format!("{} {}\n", field(record, 2), field(record, 4))).collect()
}

fn expect<T: PartialEq + std::fmt::Debug>(
    implementation: &dyn Implementation,
    line: &[String],
    wanted: T,
    got: T,
) -> Answer<()> {
    if wanted == got {
        Ok(())
    } else {
        let name = implementation.name();
        Err(Failure::Refused(format!("{}: {name} answers {got:?}, not {wanted:?}", line.join(" "))))
    }
}
