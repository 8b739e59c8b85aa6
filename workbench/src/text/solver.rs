//! From a pack's text to the same system as the solvers write it.

use super::words::{at_line, first_word, lines, shown};
use super::Answer;

/// One rule a line, as the pack's text has it; the caller sees whether it is a text that the loader reads.
pub fn solver_text(text: &str) -> Answer<String> {
    let (mut variables, mut rules) = (String::new(), String::new());
    for (number, line) in lines(text) {
        match first_word(line) {
            ("symbols", _) => {}
            ("variables", names) => names.split_whitespace().for_each(|name| variables += &format!(" {name}")),
            _ if line.contains(['#', '@']) => {
                return Err(at_line(number, &format!("{} has no names; names are wanted", shown(line))));
            }
            _ => rules += &format!("  {line}\n"),
        }
    }
    Ok(format!("(VAR{variables})\n(RULES\n{rules})\n"))
}
