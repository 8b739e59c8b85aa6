//! Lines, words and numbers, and the lines that write records and bytes as they stand.

use super::{Answer, Mode};
use crate::encode::raw_record;
use std::str::FromStr;

/// So many characters of a wrong text are shown.
const SHOWN: usize = 40;

/// Lines with their numbers, without comments and empty ones.
pub fn lines(text: &str) -> impl Iterator<Item = (usize, &str)> {
    text.lines()
        .enumerate()
        .map(|(index, line)| (index + 1, without_comment(line)))
        .filter(|(_, line)| !line.is_empty())
}

fn without_comment(line: &str) -> &str {
    line.split(';').next().unwrap_or("").trim()
}

pub fn first_word(line: &str) -> (&str, &str) {
    match line.split_once(char::is_whitespace) {
        Some((word, rest)) => (word, rest.trim()),
        None => (line, ""),
    }
}

/// The error of one line.
pub fn at_line(number: usize, why: &str) -> String {
    format!("line {number}: {why}")
}

/// The start of a wrong text, so that every error is one short line.
pub fn shown(text: &str) -> String {
    let start: String = text.chars().take(SHOWN).collect();
    let more = if start.len() < text.len() { ".." } else { "" };
    format!("{start:?}{more}")
}

/// A number of digits alone: no sign.
pub fn digits<T: FromStr>(word: &str) -> Option<T> {
    let plain = word.bytes().all(|byte| byte.is_ascii_digit());
    word.parse().ok().filter(|_| plain)
}

pub fn number(word: &str) -> Answer<u16> {
    digits(word).ok_or_else(|| format!("{} is no number from 0 to 65535", shown(word)))
}

fn byte(word: &str) -> Answer<u8> {
    digits(word).ok_or_else(|| format!("{} is no number from 0 to 255", shown(word)))
}

/// A count as a field's value, if it is within the limit.
pub fn counted(count: usize, limit: usize, what: &str) -> Answer<u16> {
    let number = u16::try_from(count).ok().filter(|_| count <= limit);
    number.ok_or_else(|| format!("more than {limit} {what}; at most {limit} are wanted"))
}

/// `record K zero a b c`, the kind as a letter or a number.
pub fn explicit_record(words: &str, mode: Mode) -> Answer<Vec<u8>> {
    mode.demand(false, || needs_loose("record"))?;
    let found: Vec<&str> = words.split_whitespace().collect();
    let [kind, zero, a, b, c] = found[..] else {
        return Err(format!("record {}; a kind and four numbers are wanted", shown(words)));
    };
    Ok(raw_record(kind_of(kind)?, byte(zero)?, number(a)?, number(b)?, number(c)?).to_vec())
}

/// `bytes n n n`, for what is no whole record.
pub fn explicit_bytes(words: &str, mode: Mode) -> Answer<Vec<u8>> {
    mode.demand(false, || needs_loose("bytes"))?;
    words.split_whitespace().map(byte).collect()
}

fn needs_loose(kind: &str) -> String {
    format!("a line of {kind}; strict mode takes none, assemble with --loose")
}

fn kind_of(word: &str) -> Answer<u8> {
    match word.as_bytes() {
        [letter] if letter.is_ascii_alphabetic() => Ok(*letter),
        _ => byte(word),
    }
}
