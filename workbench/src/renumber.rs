//! Packs and certificates with their symbols and variables numbered by first appearance, as solvers' texts have them.

use crate::checker::{subterms, Pack, Rule, Term};
use std::collections::HashMap;

/// A pack numbered by first appearance, and what became of each symbol: none if it stands in no rule.
pub struct Renumbered {
    pub pack: Pack,
    pub symbols: Vec<Option<u16>>,
}

/// Symbols that stand in no rule are dropped.
pub fn renumbered(pack: &Pack) -> Renumbered {
    let mut symbols = Numbers::default();
    let rules: Vec<Rule> = pack.rules.iter().map(|rule| renumbered_rule(rule, &mut symbols)).collect();
    let arities = symbols.in_order.iter().map(|symbol| pack.arities[usize::from(*symbol)]).collect();
    let symbols = (0..pack.arities.len() as u16).map(|symbol| symbols.known.get(&symbol).copied()).collect();
    Renumbered { pack: Pack { arities, rules }, symbols }
}

/// Numbers given in the order of asking.
#[derive(Default)]
struct Numbers {
    known: HashMap<u16, u16>,
    in_order: Vec<u16>,
}

impl Numbers {
    fn of(&mut self, old: u16) -> u16 {
        let next = self.in_order.len() as u16;
        let number = *self.known.entry(old).or_insert(next);
        if number == next {
            self.in_order.push(old);
        }
        number
    }
}

/// The left side is asked before the right, each in prefix order.
fn renumbered_rule(rule: &Rule, symbols: &mut Numbers) -> Rule {
    let mut variables = Numbers::default();
    for node in subterms(&rule.left).into_iter().chain(subterms(&rule.right)) {
        match node {
            Term::Variable(number) => variables.of(*number),
            Term::Apply(symbol, _) => symbols.of(*symbol),
        };
    }
    let mut side = |term: &Term| renumbered_term(term, symbols, &mut variables);
    Rule { left: side(&rule.left), right: side(&rule.right) }
}

fn renumbered_term(term: &Term, symbols: &mut Numbers, variables: &mut Numbers) -> Term {
    match term {
        Term::Variable(number) => Term::Variable(variables.of(*number)),
        Term::Apply(symbol, arguments) => {
            let number = symbols.of(*symbol);
            Term::Apply(number, arguments.iter().map(|one| renumbered_term(one, symbols, variables)).collect())
        }
    }
}

// ---------------------------------------------------------------- certificates

type Record = [u8; 8];

/// The same certificate for the renumbered pack, record by record, so that a wrong one stays wrong in the same way.
/// Weights of dropped symbols are dropped; none if a marked one is, which the loader would have refused.
pub fn certificate(file: &[u8], symbols: &[Option<u16>]) -> Option<Vec<u8>> {
    let (records, rest) = file.as_chunks::<8>();
    let mut bytes = Vec::new();
    for run in records.chunk_by(|one, other| one[0] == other[0]) {
        if b"WM".contains(&run[0][0]) {
            bytes.extend(weights(run, symbols)?.concat());
        } else {
            bytes.extend(run.concat());
        }
    }
    bytes.extend(rest);
    Some(bytes)
}

/// Records of one kind in a row: where the old ones rose, the new ones rise.
fn weights(run: &[Record], symbols: &[Option<u16>]) -> Option<Vec<Record>> {
    let symbol = |record: &Record| u16::from_le_bytes([record[2], record[3]]);
    // A number that no symbol has stays one that no symbol has.
    let number = |symbol: u16| symbols.get(usize::from(symbol)).copied().unwrap_or(Some(symbol));
    let kept: Vec<Record> = run.iter().filter(|record| number(symbol(record)).is_some()).copied().collect();
    if run[0][0] == b'M' && kept.len() < run.len() {
        return None;
    }
    let mut order: Vec<usize> = (0..kept.len()).collect();
    order.sort_by_key(|at| key(&kept[*at]));
    let mut sorted: Vec<Record> = kept.iter().map(|record| with_symbol(record, number(symbol(record)))).collect();
    sorted.sort_by_key(key);
    let mut renumbered = kept;
    for (at, record) in order.into_iter().zip(sorted) {
        renumbered[at] = record;
    }
    Some(renumbered)
}

/// By these weights rise: symbol and place.
fn key(record: &Record) -> [u16; 2] {
    [2, 4].map(|at| u16::from_le_bytes([record[at], record[at + 1]]))
}

fn with_symbol(record: &Record, symbol: Option<u16>) -> Record {
    let mut record = *record;
    if let Some(symbol) = symbol {
        record[2..4].copy_from_slice(&symbol.to_le_bytes());
    }
    record
}
