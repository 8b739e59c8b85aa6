//! `search PACK [restarts]`: looks for a certificate with small weights and prints its text.
//!
//! The name of the file says what it holds: `.trs` a solver's text, `.pack` a pack, any other the workbench's own text.

use std::path::Path;
use std::process::ExitCode;
use workbench::checker::{check, judge_pack};
use workbench::encode::certificate_bytes;
use workbench::files::{read, read_text};
use workbench::report::{number, print, run, Arguments, Failure};
use workbench::search::{certificate, Effort};
use workbench::solver_text::read_named;
use workbench::text::{assemble_pack, certificate_text, declared_names, disassemble_certificate, Mode, Names};

const USAGE: &str = "search PACK.txt|PACK.trs|PACK.pack [restarts], 60 restarts by default";
const RESTARTS: u64 = 60;
const MOST_RESTARTS: u64 = 1_000_000;
const STEPS: usize = 300;
const GREATEST_WEIGHT: u16 = 3;

fn main() -> ExitCode {
    run(USAGE, &[], search)
}

fn search(arguments: Arguments) -> Result<(), Failure> {
    let (path, restarts) = match &arguments.words[..] {
        [path] => (path, RESTARTS),
        [path, restarts] => (path, number(restarts, 1, MOST_RESTARTS)?),
        words => return Err(Failure::Usage(format!("{} words; one or two are wanted", words.len()))),
    };
    let effort = Effort { restarts: restarts as usize, steps: STEPS, greatest: GREATEST_WEIGHT };
    let refused = |why: String| Failure::Refused(format!("{path}: {why}"));
    let file = match Path::new(path).extension().and_then(|end| end.to_str()) {
        Some("trs") => of_solver_text(&read(path)?).map_err(refused)?,
        Some("pack") => File { pack: read(path)?, names: None },
        _ => of_own_text(&read_text(path)?).map_err(refused)?,
    };
    print(found_text(&file, effort).map_err(refused)?);
    Ok(())
}

/// A pack, and what its text calls the symbols.
struct File {
    pack: Vec<u8>,
    names: Option<Names>,
}

fn of_own_text(text: &str) -> Result<File, String> {
    let pack = assemble_pack(text, Mode::Strict)?;
    Ok(File { pack, names: Some(declared_names(text, Mode::Strict)?) })
}

fn of_solver_text(text: &[u8]) -> Result<File, String> {
    let pack = read_named(text).map_err(|number| format!("the text is refused with {number}"))?;
    let words: Vec<String> = pack.symbols.iter().map(|(name, arity)| format!("{name}/{arity}")).collect();
    let mut names = Names::default();
    // The few names that start lines of the workbench's own texts cannot be declared there.
    let declared = names.declare_symbols(&words.join(" "), Mode::Strict);
    Ok(File { pack: pack.bytes, names: declared.is_ok().then_some(names) })
}

/// The text of a certificate that is accepted; symbols without names are called by their numbers.
fn found_text(file: &File, effort: Effort) -> Result<String, String> {
    let pack = judge_pack(&file.pack).map_err(|number| format!("the pack is refused with {number}"))?;
    let components = certificate(&pack, effort).map_err(|pairs| format!("no weights found for {pairs:?}"))?;
    let bytes = certificate_bytes(&components);
    match (check(&file.pack, &bytes), &file.names) {
        (0, Some(names)) => Ok(certificate_text(&bytes, names)),
        (0, None) => Ok(disassemble_certificate(&bytes, &file.pack)),
        (number, _) => Err(format!("the certificate found is refused with {number}")),
    }
}
