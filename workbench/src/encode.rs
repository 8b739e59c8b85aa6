//! From packs and certificates to their bytes; judges nothing, so that wrong files can be written too.

use crate::checker::{Component, Pack, Rule, Term, Weighting};

/// One record of 8 bytes.
pub fn record(kind: u8, a: u16, b: u16, c: u16) -> [u8; 8] {
    raw_record(kind, 0, a, b, c)
}

/// One record with any byte 1.
pub fn raw_record(kind: u8, zero: u8, a: u16, b: u16, c: u16) -> [u8; 8] {
    let (a, b, c) = (a.to_le_bytes(), b.to_le_bytes(), c.to_le_bytes());
    [kind, zero, a[0], a[1], b[0], b[1], c[0], c[1]]
}

/// A count as a field: one that does not fit is a mistake of the caller's, never another number.
fn field(count: usize) -> u16 {
    u16::try_from(count).expect("no pack or certificate made here has a count over 65,535")
}

/// The bytes of a pack.
pub fn pack_bytes(pack: &Pack) -> Vec<u8> {
    let mut bytes = Vec::new();
    for (number, arity) in pack.arities.iter().enumerate() {
        bytes.extend(record(b'S', field(number), *arity, 0));
    }
    for (number, rule) in pack.rules.iter().enumerate() {
        bytes.extend(rule_bytes(field(number), rule));
    }
    bytes
}

/// An R record and the nodes of both sides.
pub fn rule_bytes(number: u16, rule: &Rule) -> Vec<u8> {
    let (left, right) = (side_bytes(&rule.left), side_bytes(&rule.right));
    let mut bytes = record(b'R', number, field(left.len() / 8), field(right.len() / 8)).to_vec();
    bytes.extend(left);
    bytes.extend(right);
    bytes
}

/// A side's nodes in prefix order.
pub fn side_bytes(term: &Term) -> Vec<u8> {
    match term {
        Term::Variable(number) => record(b'V', *number, 0, 0).to_vec(),
        Term::Apply(symbol, arguments) => {
            let mut bytes = record(b'F', *symbol, 0, 0).to_vec();
            bytes.extend(arguments.iter().flat_map(side_bytes));
            bytes
        }
    }
}

/// The bytes of a certificate.
pub fn certificate_bytes(components: &[Component]) -> Vec<u8> {
    let mut bytes = Vec::new();
    for (number, component) in components.iter().enumerate() {
        bytes.extend(component_bytes(field(number), component));
    }
    bytes
}

/// A C record and what follows it.
pub fn component_bytes(number: u16, component: &Component) -> Vec<u8> {
    let weightings = field(component.weightings.len());
    let mut bytes = record(b'C', number, weightings, field(component.pairs.len())).to_vec();
    for (rule, place) in &component.pairs {
        bytes.extend(record(b'P', *rule, *place, 0));
    }
    for (number, weighting) in component.weightings.iter().enumerate() {
        // The first begins without a record of its own.
        if number > 0 {
            bytes.extend(record(b'L', field(number), 0, 0));
        }
        bytes.extend(weighting_bytes(weighting));
    }
    bytes
}

/// The W and M records of one weighting.
fn weighting_bytes(weighting: &Weighting) -> Vec<u8> {
    let mut bytes = Vec::new();
    for ((symbol, place), value) in &weighting.plain {
        bytes.extend(record(b'W', *symbol, *place, *value));
    }
    for ((symbol, place), value) in &weighting.marked {
        bytes.extend(record(b'M', *symbol, *place, *value));
    }
    bytes
}

/// The bytes of an accepted listing.
pub fn list_bytes(pairs: &[(u16, u16)]) -> Vec<u8> {
    pairs.iter().flat_map(|(rule, place)| record(b'P', *rule, *place, 0)).collect()
}
