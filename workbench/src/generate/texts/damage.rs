//! Damage that mostly brings a text out of the grammar; some of it does no harm, which the comparison needs too.

use super::edges::over_long_name;
use super::printed::{is_name, Words};
use crate::random::Random;

/// Bytes that mean something here, or something elsewhere, or nothing.
const BYTES: &[u8] = b"()(),,->-> \t\n\rabxVR_'=|.*\"\\#;:[{%\0\x01\x0b\x0c\x1f\x7f\x80\xa0\xc3\xff";

/// One byte changes, goes, or comes.
pub fn bytes(random: &mut Random, text: &mut Vec<u8>) {
    let (at, byte) = (random.below(text.len()), *random.pick(BYTES));
    match random.below(5) {
        _ if text.is_empty() => text.push(byte),
        0 | 1 => text[at] = byte,
        2 => {
            text.remove(at);
        }
        3 => text.insert(at, byte),
        _ => ends(random, text, byte),
    }
}

/// Something at either end, or less of it.
fn ends(random: &mut Random, text: &mut Vec<u8>, byte: u8) {
    match random.below(4) {
        0 => text.push(byte),
        1 => text.insert(0, byte),
        2 => text.truncate(random.below(text.len())),
        _ => {
            text.drain(..random.below(text.len()));
        }
    }
}

/// One word or section is spoilt.
pub fn words(random: &mut Random, words: &mut Words) {
    let list = &mut words.0;
    match random.below(14) {
        0 => swap(random, list),
        1 => {
            list.remove(random.below(list.len()));
        }
        2 => {
            let again = random.pick(list).clone();
            list.insert(random.below(list.len() + 1), again);
        }
        3 => before(random, list, ")", ","),
        4 => after(random, list, "(", ","),
        5 => replace(random, list, "->", &["->=", "- >", "-", ">", "=>", "-->", "->->", "<-", ""]),
        6 => replace(random, list, ",", &[";", ",,", "", ".", ", ,"]),
        7 => sections(random, list),
        8 => replace(random, list, "VAR", &["VARx", "var", "VA R", "VARS", "RULES", "", "VAR(", "STRATEGY"]),
        9 => replace(random, list, "RULES", &["RULESx", "rules", "RUL ES", "RULE", "VAR", "", "RULES(", "THEORY"]),
        10 | 11 => variable_with_list(random, list),
        12 => *words = over_long_name(random),
        _ => odd_byte_in_name(random, list),
    }
}

/// A word and the next one change places.
fn swap(random: &mut Random, words: &mut [String]) {
    let at = random.below(words.len() - 1);
    words.swap(at, at + 1);
}

/// A place where this word stands, if there is one.
fn place_of(random: &mut Random, words: &[String], wanted: &str) -> Option<usize> {
    let places: Vec<usize> = (0..words.len()).filter(|at| words[*at] == wanted).collect();
    (!places.is_empty()).then(|| *random.pick(&places))
}

fn before(random: &mut Random, words: &mut Vec<String>, wanted: &str, word: &str) {
    let at = place_of(random, words, wanted).unwrap_or(0);
    words.insert(at, word.to_string());
}

fn after(random: &mut Random, words: &mut Vec<String>, wanted: &str, word: &str) {
    let at = place_of(random, words, wanted).unwrap_or(0);
    words.insert(at + 1, word.to_string());
}

fn replace(random: &mut Random, words: &mut [String], wanted: &str, others: &[&str]) {
    let at = place_of(random, words, wanted).unwrap_or(0);
    words[at] = random.pick(others).to_string();
}

// ---------------------------------------------------------------- sections

/// What other readers of this format know.
const SECTIONS: [&str; 8] = [
    "(COMMENT from a paper)",
    "(COMMENT)",
    "(STRATEGY INNERMOST)",
    "(VAR y)",
    "(RULES a -> a)",
    "(SIG (f 1))",
    "()",
    "(THEORY (AC plus))",
];

/// A section too many, too few, or the two exchanged.
fn sections(random: &mut Random, words: &mut Vec<String>) {
    let end = words.iter().position(|word| word == ")").map_or(0, |at| at + 1);
    let section = random.pick(&SECTIONS).to_string();
    match random.below(6) {
        0 => words.insert(0, section),
        1 => words.insert(end, section),
        2 => words.push(section),
        3 => words.truncate(end),
        4 => {
            words.drain(..end);
        }
        _ => words.rotate_left(end),
    }
}

// ---------------------------------------------------------------- names

/// "A variable takes no argument list": some name of the VAR section gets one, or a name with one joins the section.
fn variable_with_list(random: &mut Random, words: &mut Vec<String>) {
    let end = words.iter().position(|word| word == ")").unwrap_or(0);
    let declared = words.get(2..end).unwrap_or_default().to_vec();
    let places: Vec<usize> = (end..words.len()).filter(|at| declared.contains(&words[*at])).collect();
    if places.is_empty() || random.chance(30) {
        let listed: Vec<usize> = (end + 3..words.len().max(1) - 1).filter(|at| words[at + 1] == "(").collect();
        if !listed.is_empty() {
            let name = words[*random.pick(&listed)].clone();
            words.insert(end, name);
        }
        return;
    }
    let at = random.pick(&places) + 1;
    let list: &[&str] = if random.chance(60) { &["(", ")"] } else { &["(", "a", ")"] };
    words.splice(at..at, list.iter().map(|word| word.to_string()));
}

/// A byte that no name has, inside a name or at its ends.
fn odd_byte_in_name(random: &mut Random, words: &mut [String]) {
    let names: Vec<usize> = (0..words.len()).filter(|at| is_name(&words[*at])).collect();
    if names.is_empty() {
        return;
    }
    let word = &mut words[*random.pick(&names)];
    let odd = *random.pick(&['\0', '-', '>', '.', '#', '@', '+', '\u{b}', '\u{7f}', '\u{e9}', '"', '*', ' ']);
    word.insert(random.below(word.len() + 1), odd);
}
