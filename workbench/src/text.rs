//! Readable texts for both files, and back. The README shows the language.
//!
//! Strict mode, the default, refuses what the loader's reading refuses and what looks like a slip.
//! Loose mode judges nothing but its own language, so wrong files can be written on purpose.
//! The disassembler writes strict text where that gives back the very same bytes, else loose text, else records.

mod certificate;
mod disassemble;
mod names;
mod pack;
mod solver;
mod words;

pub use certificate::assemble_certificate;
pub use disassemble::{certificate_text, disassemble_certificate, disassemble_pack};
pub use names::{declared_names, Names};
pub use pack::assemble_pack;
pub use solver::solver_text;
pub use words::digits;

/// The value, or what was found and what was wanted; whole texts put `line N: ` before it.
pub type Answer<T> = Result<T, String>;

/// Terms nest no deeper in any mode, so that reading them cannot run out of stack.
pub const DEPTH_LIMIT: usize = 1_000;

/// No count is greater in any mode: a record's field holds no more.
pub const COUNT_LIMIT: usize = 65_535;

/// The first line of a disassembly that strict mode would refuse.
pub const LOOSE_NOTE: &str = "; assemble with --loose";

/// How much the assembler judges.
#[derive(Clone, Copy, Debug, PartialEq, Eq)]
pub enum Mode {
    Strict,
    Loose,
}

impl Mode {
    /// The limit of document 01 in strict mode, else what a field holds.
    fn limit(self, strict: usize) -> usize {
        match self {
            Mode::Strict => strict,
            Mode::Loose => COUNT_LIMIT,
        }
    }

    /// A demand of strict mode alone.
    fn demand(self, holds: bool, why: impl FnOnce() -> String) -> Answer<()> {
        if holds || self == Mode::Loose {
            Ok(())
        } else {
            Err(why())
        }
    }
}

/// The mode that a disassembly names in its first line.
pub fn mode_of(text: &str) -> Mode {
    if text.lines().next() == Some(LOOSE_NOTE) {
        Mode::Loose
    } else {
        Mode::Strict
    }
}
