//! Spoils aimed at one number each, at early and at late places; and blind damage.
//!
//! An aim may be missed, as another number may come first: the comparison only needs variety.

use super::packs::Base;
use crate::checker::{arc_runs, is_defined, root, subterms, variables};
use crate::checker::{Component, Pack, Pair, Term, Weighting, CERTIFICATE_LIMIT, PACK_LIMIT};
use crate::encode::record;
use crate::random::Random;

// ---------------------------------------------------------------- on packs and components

/// Aims at 5 to 13 by changing terms, pairs or weights.
pub fn spoil_base(random: &mut Random, base: &mut Base, aim: u32) {
    match aim {
        5 => bare_left(random, &mut base.pack),
        6 => loose_variable(random, &mut base.pack),
        7 => wrong_pair(random, base),
        8 => pair_count(random, &mut base.components),
        9 => exchange(random, base),
        10 => without_weights(random, base),
        11 => heavy(random, base),
        12 => plain_change(random, base),
        13 => marked_change(random, base),
        _ => {}
    }
}

fn bare_left(random: &mut Random, pack: &mut Pack) {
    if pack.rules.is_empty() {
        return;
    }
    let rule = random.late(pack.rules.len());
    let variable = Term::Variable(random.below(16) as u16);
    pack.rules[rule].left = variable.clone();
    if random.chance(50) {
        pack.rules[rule].right = variable;
    }
}

/// A variable of the right gets a number that is not on the left.
fn loose_variable(random: &mut Random, pack: &mut Pack) {
    if pack.rules.is_empty() {
        return;
    }
    let number = random.late(pack.rules.len());
    let rule = &mut pack.rules[number];
    let on_left = variables(&rule.left);
    let others: Vec<u16> = (0..16).filter(|variable| !on_left.contains(variable)).collect();
    if others.is_empty() {
        return;
    }
    let other = *random.pick(&others);
    let count = variables(&rule.right).len();
    if count == 0 {
        rule.right = Term::Variable(other);
    } else {
        let mut at = random.late(count);
        rename(&mut rule.right, &mut at, other);
    }
}

/// Renames the variable that comes at that place among the variables.
fn rename(term: &mut Term, at: &mut usize, name: u16) {
    match term {
        Term::Variable(number) => {
            if *at == 0 {
                *number = name;
            }
            *at = at.wrapping_sub(1);
        }
        Term::Apply(_, arguments) => arguments.iter_mut().for_each(|argument| rename(argument, at, name)),
    }
}

/// A component, often a late one.
fn some_component(random: &mut Random, components: &[Component]) -> Option<usize> {
    if components.is_empty() {
        return None;
    }
    Some(random.late(components.len()))
}

/// A component with weights, often a late one.
fn some_weighted(random: &mut Random, components: &[Component]) -> Option<usize> {
    let weighted: Vec<usize> = (0..components.len()).filter(|index| components[*index].is_weighted()).collect();
    if weighted.is_empty() {
        return None;
    }
    Some(weighted[random.late(weighted.len())])
}

/// A weighting of such a component, often a late one.
fn some_weighting<'a>(random: &mut Random, components: &'a mut [Component]) -> Option<&'a mut Weighting> {
    let number = some_weighted(random, components)?;
    let weightings = &mut components[number].weightings;
    let at = random.late(weightings.len());
    weightings.get_mut(at)
}

/// A pair's place or rule is moved, mostly so that the pairs still rise.
fn wrong_pair(random: &mut Random, base: &mut Base) {
    let Some(number) = some_component(random, &base.components) else {
        base.components
            .push(Component { pairs: vec![(random.below(3) as u16, random.below(40) as u16)], ..Component::default() });
        return;
    };
    let pairs = &mut base.components[number].pairs;
    if pairs.is_empty() {
        return;
    }
    let last = pairs.len() - 1;
    match random.below(5) {
        0 => pairs[last].0 = base.pack.rules.len() as u16 + random.below(3) as u16,
        1 => pairs[last].1 = random.range(30, 40) as u16,
        2 => pairs[last] = (65_535, random.below(65_536) as u16),
        3 => pairs[last].1 = 65_535 - random.below(3) as u16,
        _ => {
            let at = random.late(pairs.len());
            pairs[at].1 += 1;
            pairs.sort_unstable();
            pairs.dedup();
        }
    }
}

/// A pair goes, or comes a second time.
fn pair_count(random: &mut Random, components: &mut Vec<Component>) {
    let Some(number) = some_component(random, components) else {
        return;
    };
    let at = random.late(components[number].pairs.len().max(1));
    let Some(pair) = components[number].pairs.get(at).copied() else {
        return;
    };
    if random.chance(50) {
        components[number].pairs.remove(at);
        if components[number].pairs.is_empty() {
            components.remove(number);
        }
        return;
    }
    match some_weighted(random, components) {
        // Twice in one component: the pairs do not rise.
        _ if components[number].is_weighted() && random.chance(20) => components[number].pairs.insert(at, pair),
        Some(other) if random.chance(70) => {
            components[other].pairs.push(pair);
            components[other].pairs.sort_unstable();
            components[other].pairs.dedup();
        }
        _ => components.push(Component { pairs: vec![pair], ..Component::default() }),
    }
}

/// Two components change places, best two with an arc between them; or one moves to an end.
fn exchange(random: &mut Random, base: &mut Base) {
    let components = &mut base.components;
    if components.len() < 2 {
        return;
    }
    for _ in 0..10 {
        let later = random.late(components.len() - 1) + 1;
        let earlier = random.below(later);
        let meets = |from: &Pair| components[later].pairs.iter().any(|to| arc_runs(&base.pack, *from, *to));
        if components[earlier].pairs.iter().take(20).any(meets) {
            return components.swap(earlier, later);
        }
    }
    let (one, other) = (random.late(components.len()), random.below(components.len()));
    match random.below(4) {
        0 => {
            let moved = components.remove(one);
            components.push(moved);
        }
        1 => {
            let moved = components.remove(one);
            components.insert(0, moved);
        }
        2 => components.reverse(),
        _ => components.swap(one, other),
    }
}

/// A single pair that has an arc to itself loses its weights; or one is split off.
fn without_weights(random: &mut Random, base: &mut Base) {
    let own = |component: &Component| {
        let first = component.pairs.first();
        component.is_weighted() && first.is_some_and(|pair| arc_runs(&base.pack, *pair, *pair))
    };
    let single: Vec<usize> = (0..base.components.len())
        .filter(|i| base.components[*i].pairs.len() == 1 && own(&base.components[*i]))
        .collect();
    if !single.is_empty() {
        let number = single[random.late(single.len())];
        base.components[number].weightings.clear();
        return;
    }
    let Some(number) = some_weighted(random, &base.components) else {
        return;
    };
    let component = &mut base.components[number];
    let at = random.below(component.pairs.len());
    if component.pairs.len() > 1 {
        let pair = component.pairs.remove(at);
        let split = Component { pairs: vec![pair], ..Component::default() };
        base.components.insert(number + random.below(2), split);
    }
}

/// Great weights on some symbols, plain or marked.
fn heavy(random: &mut Random, base: &mut Base) {
    let Some(weighting) = some_weighting(random, &mut base.components) else {
        return;
    };
    let great = *random.pick(&[65_535, 65_535, 65_534, 40_000, 1_626, 1_625, 256]);
    for _ in 0..random.range(1, 4) {
        let marked = random.chance(30);
        let symbol = some_symbol(random, &base.pack);
        if marked && !is_defined(&base.pack, symbol) {
            continue;
        }
        let weights = if marked { &mut weighting.marked } else { &mut weighting.plain };
        for place in 0..=base.pack.arities[usize::from(symbol)] {
            if random.chance(70) {
                weights.insert((symbol, place), great);
            }
        }
    }
}

/// A symbol that stands in a rule, if there is one.
fn some_symbol(random: &mut Random, pack: &Pack) -> u16 {
    if pack.rules.is_empty() {
        return 0;
    }
    let rule = random.pick(&pack.rules);
    let side = if random.chance(50) { &rule.left } else { &rule.right };
    let symbols: Vec<u16> = subterms(side).into_iter().filter_map(root).collect();
    if symbols.is_empty() {
        return 0;
    }
    *random.pick(&symbols)
}

/// A plain weight is dropped, raised or set.
fn plain_change(random: &mut Random, base: &mut Base) {
    let Some(weighting) = some_weighting(random, &mut base.components) else {
        return;
    };
    change(random, &mut weighting.plain, &base.pack.arities, |_| true);
}

/// A marked weight is dropped, raised or set.
fn marked_change(random: &mut Random, base: &mut Base) {
    let Some(weighting) = some_weighting(random, &mut base.components) else {
        return;
    };
    let pack = &base.pack;
    change(random, &mut weighting.marked, &pack.arities, |symbol| is_defined(pack, symbol));
}

fn change(random: &mut Random, weights: &mut crate::checker::Weights, arities: &[u16], allowed: impl Fn(u16) -> bool) {
    let keys: Vec<(u16, u16)> = weights.keys().copied().collect();
    if !keys.is_empty() && random.chance(70) {
        let key = *random.pick(&keys);
        match random.below(3) {
            0 => weights.insert(key, weights[&key].saturating_add(random.range(1, 3) as u16)),
            1 => weights.insert(key, weights[&key].saturating_sub(1)),
            _ => weights.remove(&key),
        };
        return;
    }
    let symbol = random.below(arities.len()) as u16;
    if allowed(symbol) {
        let place = random.range(0, usize::from(arities[usize::from(symbol)])) as u16;
        weights.insert((symbol, place), random.range(0, 4) as u16);
    }
}

// ---------------------------------------------------------------- on bytes

pub fn indices(file: &[u8], kinds: &[u8]) -> Vec<usize> {
    (0..file.len() / 8).filter(|index| kinds.contains(&file[index * 8])).collect()
}

/// A record of one of these kinds, often a late one.
pub fn some_record(random: &mut Random, file: &[u8], kinds: &[u8]) -> Option<usize> {
    let indices = indices(file, kinds);
    if indices.is_empty() {
        return None;
    }
    Some(indices[random.late(indices.len())])
}

pub fn field(file: &[u8], record: usize, at: usize) -> u16 {
    u16::from_le_bytes([file[record * 8 + at], file[record * 8 + at + 1]])
}

pub fn set_field(file: &mut [u8], record: usize, at: usize, value: u16) {
    file[record * 8 + at..record * 8 + at + 2].copy_from_slice(&value.to_le_bytes());
}

/// Aims at 1: a length that is no multiple of 8, or over the limit; sometimes right at the limit.
pub fn cut(random: &mut Random, file: &mut Vec<u8>, is_pack: bool) {
    let limit = if is_pack { PACK_LIMIT } else { CERTIFICATE_LIMIT };
    match random.below(6) {
        0 | 1 => file.truncate(file.len().saturating_sub(random.range(1, 7))),
        2 | 3 => file.extend((0..random.range(1, 7)).map(|_| 0)),
        4 => grow(file, limit + 8 * random.range(1, 3)),
        _ => grow(file, limit),
    }
}

/// Repeats the last record up to that length.
fn grow(file: &mut Vec<u8>, length: usize) {
    if !file.len().is_multiple_of(8) || file.len() >= length {
        return;
    }
    let last: Vec<u8> = if file.len() >= 8 { file[file.len() - 8..].to_vec() } else { record(b'S', 0, 0, 0).to_vec() };
    while file.len() < length {
        file.extend(&last);
    }
}

/// Aims at 2.
pub fn stray(random: &mut Random, file: &mut Vec<u8>) {
    let count = file.len() / 8;
    if count == 0 {
        file.extend(record(*random.pick(b"RFVPWMLSCX"), 0, 1, 1));
        return;
    }
    let at = random.late(count);
    match random.below(9) {
        0 => file[at * 8 + 1] = random.range(1, 255) as u8,
        1 => file[at * 8] = *random.pick(b"SRFVCPWMLsX\0"),
        2 => unnamed_field(random, file),
        3 => sequence(random, file),
        4 => doubled(file, at),
        5 => exchange_records(file, at, (at + 1).min(count - 1)),
        6 => drop_record(file, at),
        7 => file.truncate(at * 8),
        _ => second_unweighted(random, file),
    }
}

/// A field that the kind does not name becomes other than zero.
fn unnamed_field(random: &mut Random, file: &mut [u8]) {
    let Some(at) = some_record(random, file, b"SFVPL") else {
        return;
    };
    let value = *random.pick(&[1, 2, 256, 65_535]);
    match file[at * 8] {
        b'S' | b'P' => set_field(file, at, 6, value),
        _ => set_field(file, at, *random.pick(&[4, 6]), value),
    }
}

/// S, R, C or L gets another number.
fn sequence(random: &mut Random, file: &mut [u8]) {
    if let Some(at) = some_record(random, file, b"SRCL") {
        let number = field(file, at, 2);
        let other = *random.pick(&[number.wrapping_add(1), number.wrapping_sub(1), 0, 64, number ^ 256]);
        set_field(file, at, 2, other);
    }
}

fn doubled(file: &mut Vec<u8>, at: usize) {
    let copy = file[at * 8..at * 8 + 8].to_vec();
    file.splice(at * 8..at * 8, copy);
}

fn drop_record(file: &mut Vec<u8>, at: usize) {
    file.drain(at * 8..at * 8 + 8);
}

fn exchange_records(file: &mut [u8], one: usize, other: usize) {
    for byte in 0..8 {
        file.swap(one * 8 + byte, other * 8 + byte);
    }
}

/// A component without weights that announces several pairs.
fn second_unweighted(random: &mut Random, file: &mut [u8]) {
    if let Some(at) = some_record(random, file, b"C") {
        set_field(file, at, 4, 0);
        set_field(file, at, 6, *random.pick(&[0, 1, 2, 2_048, 2_049, 65_535]));
    }
}

/// Aims at 3, in a pack.
pub fn pack_out_of_range(random: &mut Random, file: &mut Vec<u8>) {
    let symbols = indices(file, b"S").len() as u16;
    match random.below(6) {
        0 => set_some(random, file, b"S", 4, &[9, 10, 16, 256, 65_535, 8]),
        1 => set_some(random, file, b"R", 4, &[0, 33, 34, 256, 65_535]),
        2 => set_some(random, file, b"R", 6, &[0, 33, 34, 256, 65_535]),
        3 => set_some(random, file, b"F", 2, &[symbols, symbols + 1, 64, 256, 65_535]),
        4 => set_some(random, file, b"V", 2, &[16, 17, 32, 256, 65_535]),
        _ => too_many(random, file, symbols),
    }
}

/// Aims at 3, in a certificate.
pub fn certificate_out_of_range(random: &mut Random, file: &mut [u8], pack: &Pack) {
    let symbols = pack.arities.len() as u16;
    match random.below(5) {
        0 => set_some(random, file, b"C", 4, &[9, 9, 10, 256, 65_535]),
        1 => set_some(random, file, b"C", 6, &[0, 2_049, 65_535]),
        2 => set_some(random, file, b"WM", 2, &[symbols, symbols + 1, 64, 65_535]),
        3 => weight_place(random, file, pack),
        _ => marked_constructor(random, file, pack),
    }
}

fn set_some(random: &mut Random, file: &mut [u8], kinds: &[u8], at: usize, values: &[u16]) {
    if let Some(record) = some_record(random, file, kinds) {
        set_field(file, record, at, *random.pick(values));
    }
}

/// A 65th symbol or a 65th rule, in sequence or nearly so.
fn too_many(random: &mut Random, file: &mut Vec<u8>, symbols: u16) {
    if random.chance(50) {
        let last = *random.pick(&[64, 64, 63, 65]);
        let more: Vec<u8> = (symbols..=last).flat_map(|number| record(b'S', number, 0, 0)).collect();
        let at = usize::from(symbols) * 8;
        file.splice(at..at, more);
    } else if symbols > 0 && field(file, 0, 4) == 0 {
        let rules = indices(file, b"R").len() as u16;
        for number in rules..=*random.pick(&[64, 64, 63]) {
            file.extend(record(b'R', number, 1, 1));
            file.extend(record(b'F', 0, 0, 0));
            file.extend(record(b'F', 0, 0, 0));
        }
    }
}

fn weight_place(random: &mut Random, file: &mut [u8], pack: &Pack) {
    if let Some(at) = some_record(random, file, b"WM") {
        let symbol = usize::from(field(file, at, 2));
        let arity = pack.arities.get(symbol).copied().unwrap_or(0);
        set_field(file, at, 4, *random.pick(&[arity + 1, arity + 1, arity + 2, 9, 65_535]));
    }
}

fn marked_constructor(random: &mut Random, file: &mut [u8], pack: &Pack) {
    let constructors: Vec<u16> = (0..pack.arities.len() as u16).filter(|symbol| !is_defined(pack, *symbol)).collect();
    if constructors.is_empty() {
        return;
    }
    if random.chance(50) {
        set_some(random, file, b"M", 2, &constructors);
    } else if let Some(at) = some_record(random, file, b"W") {
        file[at * 8] = b'M';
    }
}

/// Aims at 4: the sides' border moves, or a node changes its arity.
pub fn broken(random: &mut Random, file: &mut [u8]) {
    let symbols = indices(file, b"S").len();
    if random.chance(40) {
        if let Some(at) = some_record(random, file, b"R") {
            let (left, right) = (field(file, at, 4), field(file, at, 6));
            let by = if random.chance(50) { 1 } else { u16::MAX };
            set_field(file, at, 4, left.wrapping_add(by));
            set_field(file, at, 6, right.wrapping_sub(by));
        }
        return;
    }
    if let Some(at) = some_record(random, file, b"FV") {
        file[at * 8] = *random.pick(b"FFV");
        let bound = if file[at * 8] == b'F' { symbols } else { 16 };
        set_field(file, at, 2, random.below(bound) as u16);
    }
}

/// Blind damage: bits, bytes, records.
pub fn damage(random: &mut Random, file: &mut Vec<u8>) {
    for _ in 0..random.range(1, 3) {
        let count = file.len() / 8;
        if file.is_empty() {
            return file.extend((0..random.below(17)).map(|_| random.below(256) as u8));
        }
        let byte = random.late(file.len());
        match random.below(8) {
            0 | 1 => file[byte] ^= 1 << random.below(8),
            2 => file[byte] = random.below(256) as u8,
            3 => file[byte] = file[byte].wrapping_add(*random.pick(&[1, 255])),
            4 => file.truncate(byte),
            5 if count > 0 => doubled(file, random.late(count)),
            6 if count > 1 => exchange_records(file, random.below(count), random.late(count)),
            _ if count > 0 => drop_record(file, random.late(count)),
            _ => {}
        }
    }
}
