//! `assemble [--loose] pack|cert TEXT FILE`: from a readable text to the file's bytes.

use std::process::ExitCode;
use workbench::files;
use workbench::report::{run, Arguments, Failure};
use workbench::text::{assemble_certificate, assemble_pack, Mode};

const USAGE: &str = "assemble [--loose] pack|cert TEXT FILE";
const LOOSE: &str = "--loose";

fn main() -> ExitCode {
    run(USAGE, &[LOOSE], assemble)
}

fn assemble(arguments: Arguments) -> Result<(), Failure> {
    let mode = if arguments.has(LOOSE) { Mode::Loose } else { Mode::Strict };
    let [kind, from, to] = &arguments.words[..] else {
        return Err(Failure::Usage(format!("{} words; three are wanted", arguments.words.len())));
    };
    let assemble = match kind.as_str() {
        "pack" => assemble_pack,
        "cert" => assemble_certificate,
        _ => return Err(Failure::Usage(format!("{kind:?} is neither pack nor cert"))),
    };
    let text = files::read_text(from)?;
    let bytes = assemble(&text, mode).map_err(|why| Failure::Refused(format!("{from}: {why}")))?;
    files::write(to, &bytes)
}
