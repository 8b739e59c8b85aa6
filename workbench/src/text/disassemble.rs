//! From any bytes to a text that gives them back.

use super::names::Names;
use super::{assemble_certificate, assemble_pack, Answer, Mode, COUNT_LIMIT, LOOSE_NOTE};
use std::collections::HashSet;

type Record = [u8; 8];

/// A pack's bytes as terms, or as records if they are no such.
pub fn disassemble_pack(file: &[u8]) -> String {
    faithful(pack_as_terms(file), file, assemble_pack)
}

/// A certificate's bytes as components and weights, or as records; the pack lends its symbols.
pub fn disassemble_certificate(file: &[u8], pack: &[u8]) -> String {
    let names = read_loosely(pack).and_then(|pack| pack.names());
    certificate_text(file, &names.unwrap_or_default())
}

/// The same with names and arities of the caller's.
pub fn certificate_text(file: &[u8], names: &Names) -> String {
    faithful(certificate_as_components(file, names), file, assemble_certificate)
}

/// The text if it gives back the same bytes, strictly or else loosely; else the records.
fn faithful(text: Option<String>, file: &[u8], assemble: fn(&str, Mode) -> Answer<Vec<u8>>) -> String {
    let gives_back = |text: &String, mode| assemble(text, mode).is_ok_and(|bytes| bytes == file);
    let text = text.filter(|text| gives_back(text, Mode::Loose));
    match text {
        Some(text) if gives_back(&text, Mode::Strict) => text,
        Some(text) => format!("{LOOSE_NOTE}\n{text}"),
        None => format!("{LOOSE_NOTE}\n{}", records_as_text(file)),
    }
}

/// One line a record, and the bytes left over.
fn records_as_text(file: &[u8]) -> String {
    let (records, rest) = file.as_chunks::<8>();
    let mut text = String::from("; record by record: kind, byte 1, a, b, c\n");
    for record in records {
        let (kind, zero, [a, b, c]) = fields(record);
        text += &format!("record {} {zero} {a} {b} {c}\n", kind_name(kind));
    }
    if !rest.is_empty() {
        let rest: Vec<String> = rest.iter().map(u8::to_string).collect();
        text += &format!("bytes {}\n", rest.join(" "));
    }
    text
}

fn fields(record: &Record) -> (u8, u8, [u16; 3]) {
    let field = |at: usize| u16::from_le_bytes([record[at], record[at + 1]]);
    (record[0], record[1], [field(2), field(4), field(6)])
}

fn kind_name(kind: u8) -> String {
    if kind.is_ascii_alphabetic() {
        char::from(kind).to_string()
    } else {
        kind.to_string()
    }
}

// ---------------------------------------------------------------- packs

/// Symbols and rules without regard to limits.
struct LoosePack<'a> {
    arities: Vec<u16>,
    rules: Vec<LooseRule<'a>>,
}

/// The nodes of both sides, which need be no terms.
struct LooseRule<'a> {
    left: &'a [Record],
    right: &'a [Record],
}

/// None as soon as a record is neither a symbol nor of a rule; the caller compares the bytes.
fn read_loosely(file: &[u8]) -> Option<LoosePack<'_>> {
    let (mut records, _) = file.as_chunks::<8>();
    let mut pack = LoosePack { arities: Vec::new(), rules: Vec::new() };
    while let Some((record, rest)) = records.split_first() {
        let (kind, _, [_, b, c]) = fields(record);
        records = rest;
        match kind {
            b'S' => pack.arities.push(b),
            b'R' => {
                let (nodes, after) = records.split_at_checked(usize::from(b) + usize::from(c))?;
                let (left, right) = nodes.split_at(usize::from(b));
                pack.rules.push(LooseRule { left, right });
                records = after;
            }
            _ => return None,
        }
    }
    Some(pack)
}

impl LoosePack<'_> {
    /// f3 for a defined symbol, c3 for a constructor.
    fn names(&self) -> Option<Names> {
        let roots: HashSet<usize> = self.rules.iter().filter_map(LooseRule::root).map(usize::from).collect();
        let mut names = Names::default();
        for (symbol, arity) in self.arities.iter().enumerate() {
            let letter = if roots.contains(&symbol) { 'f' } else { 'c' };
            names.add_symbol(&format!("{letter}{symbol}"), *arity, COUNT_LIMIT).ok()?;
        }
        Some(names)
    }
}

impl LooseRule<'_> {
    fn root(&self) -> Option<u16> {
        match fields(self.left.first()?) {
            (b'F', _, [symbol, ..]) => Some(symbol),
            _ => None,
        }
    }

    fn variables(&self) -> impl Iterator<Item = u16> + '_ {
        let nodes = self.left.iter().chain(self.right).map(fields);
        nodes.filter(|(kind, ..)| *kind == b'V').map(|(_, _, [number, ..])| number)
    }

    /// How many variables there are, if these are 0, 1, 2 .. in the order of their first appearance.
    fn named_variables(&self) -> Option<usize> {
        let mut next = 0;
        for variable in self.variables().map(usize::from) {
            if variable > next || variable >= VARIABLE_NAMES.len() {
                return None;
            }
            next = next.max(variable + 1);
        }
        Some(next)
    }

    fn text(&self, names: &Names) -> Option<String> {
        let named = self.named_variables().is_some();
        Some(format!("{} -> {}\n", side_text(self.left, names, named)?, side_text(self.right, names, named)?))
    }
}

/// The symbols and rules of a pack; none as soon as something is odd.
fn pack_as_terms(file: &[u8]) -> Option<String> {
    let pack = read_loosely(file)?;
    let names = pack.names()?;
    let mut text = names.symbols_line();
    text += &variables_line(pack.rules.iter().filter_map(LooseRule::named_variables).max().unwrap_or(0));
    for rule in &pack.rules {
        text += &rule.text(&names)?;
    }
    Some(text)
}

const VARIABLE_NAMES: [&str; 16] = ["x", "y", "z", "u", "v", "w", "k", "l", "m", "n", "p", "q", "r", "t", "i", "j"];

fn variables_line(count: usize) -> String {
    if count == 0 {
        return String::new();
    }
    format!("variables {}\n", VARIABLE_NAMES[..count].join(" "))
}

/// A side's nodes as one term; none if they are no such.
fn side_text(nodes: &[Record], names: &Names, named: bool) -> Option<String> {
    let mut text = String::new();
    // For each open list, how many of its arguments have not ended.
    let mut open: Vec<u16> = Vec::new();
    for (index, node) in nodes.iter().enumerate() {
        if index > 0 && open.is_empty() {
            return None;
        }
        let (name, arity) = node_text(node, names, named)?;
        text += &name;
        if arity > 0 {
            text.push('(');
            open.push(arity);
        } else {
            end_argument(&mut text, &mut open);
        }
    }
    (open.is_empty() && !nodes.is_empty()).then_some(text)
}

/// Closes all lists of which this was the last argument.
fn end_argument(text: &mut String, open: &mut Vec<u16>) {
    while let Some(left) = open.pop() {
        if left > 1 {
            open.push(left - 1);
            text.push_str(", ");
            return;
        }
        text.push(')');
    }
}

/// The name of a node, and how many arguments follow; variables by name if they are numbered by appearance.
fn node_text(node: &Record, names: &Names, named: bool) -> Option<(String, u16)> {
    match fields(node) {
        (b'V', _, [number, ..]) if named => Some((VARIABLE_NAMES[usize::from(number)].to_string(), 0)),
        (b'V', _, [number, ..]) => Some((format!("#{number}"), 0)),
        (b'F', _, [symbol, ..]) => Some((names.symbol_text(symbol), names.arity(symbol)?)),
        _ => None,
    }
}

// ---------------------------------------------------------------- certificates

/// Components, pairs and weights; none as soon as something is odd.
fn certificate_as_components(file: &[u8], names: &Names) -> Option<String> {
    let (records, _) = file.as_chunks::<8>();
    let mut text = names.symbols_line().trim_end().to_string();
    let mut last: Option<(u8, u16, u16)> = None;
    for record in records {
        let (kind, _, [a, b, c]) = fields(record);
        let goes_on = last.is_some_and(|(k, symbol, place)| k == kind && symbol == a && place < b);
        last = Some((kind, a, b));
        text += &match kind {
            b'C' if b == 0 => "\n\ncomponent without weights".to_string(),
            b'C' => "\n\ncomponent".to_string(),
            b'P' => format!("\npair {a} {b}"),
            b'L' => "\nweighting".to_string(),
            b'W' | b'M' if goes_on => format!(" + {}", summand_text(b, c)),
            b'W' => format!("\nweight {} = {}", names.symbol_text(a), summand_text(b, c)),
            b'M' => format!("\nmarked {} = {}", names.symbol_text(a), summand_text(b, c)),
            _ => return None,
        };
    }
    Some(text.trim_start().to_string() + "\n")
}

fn summand_text(place: u16, value: u16) -> String {
    match (place, value) {
        (0, value) => value.to_string(),
        (place, 1) => format!("x{place}"),
        (place, value) => format!("{value}*x{place}"),
    }
}
