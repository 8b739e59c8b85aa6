//! `disassemble pack FILE` or `disassemble cert FILE [PACK]`: a file as readable text, whatever its bytes.

use std::process::ExitCode;
use workbench::files::read;
use workbench::report::{print, run, Arguments, Failure};
use workbench::text::{disassemble_certificate, disassemble_pack};

const USAGE: &str = "disassemble pack FILE, or disassemble cert FILE [PACK]";

fn main() -> ExitCode {
    run(USAGE, &[], disassemble)
}

fn disassemble(arguments: Arguments) -> Result<(), Failure> {
    let words: Vec<&str> = arguments.words.iter().map(String::as_str).collect();
    let text = match words[..] {
        ["pack", file] => disassemble_pack(&read(file)?),
        ["cert", file] => disassemble_certificate(&read(file)?, &[]),
        ["cert", file, pack] => disassemble_certificate(&read(file)?, &read(pack)?),
        _ => return Err(Failure::Usage(format!("{words:?} is not understood"))),
    };
    print(text);
    Ok(())
}
