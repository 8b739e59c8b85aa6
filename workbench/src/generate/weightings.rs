//! Components with several weightings: made from good ones with one, and spoilt as weightings and as records.

use super::packs::{falls_under, records, roots_of, Base, RECORDS};
use super::spoil::{field, indices, set_field, some_record};
use crate::checker::{is_defined, Component, Pack, Pair, Weighting, WEIGHTING_LIMIT};
use crate::encode::record;
use crate::random::Random;

// ---------------------------------------------------------------- making

/// Those of the weightings under which a pair still present falls, in their order.
pub fn under_which_some_leave(pack: &Pack, pairs: &[Pair], weightings: Vec<Weighting>) -> Vec<Weighting> {
    let mut present = pairs.to_vec();
    let mut kept = Vec::new();
    for weighting in weightings {
        let before = present.len();
        present.retain(|pair| !falls_under(pack, *pair, &weighting));
        if present.len() < before {
            kept.push(weighting);
        }
    }
    kept
}

/// Sometimes a weight of 0 is written out: the same weights, but not the same records.
pub fn name_zeros(random: &mut Random, pack: &Pack, weighting: &mut Weighting) {
    for _ in 0..*random.pick(&[0, 0, 1, 3]) {
        let symbol = random.below(pack.arities.len()) as u16;
        let place = random.range(0, usize::from(pack.arities[usize::from(symbol)])) as u16;
        let marked = is_defined(pack, symbol) && random.chance(50);
        let weights = if marked { &mut weighting.marked } else { &mut weighting.plain };
        weights.entry((symbol, place)).or_insert(0);
    }
}

/// Components with one weighting get several, `most` at most, as far as their pairs have marked roots apart.
pub fn split(random: &mut Random, base: &mut Base, most: usize) {
    for number in 0..base.components.len() {
        let before = base.components[number].clone();
        if let [weighting] = &before.weightings[..] {
            let classes = classes(&base.pack, &before.pairs);
            let count = classes.len().min(most).min(usize::from(WEIGHTING_LIMIT));
            if count > 1 {
                base.components[number].weightings = parted(random, &base.pack, weighting, classes, count);
            }
        }
        if records(&base.components) > RECORDS {
            base.components[number] = before;
        }
    }
}

/// The symbols at the roots of the pairs, those of one pair always together.
fn classes(pack: &Pack, pairs: &[Pair]) -> Vec<Vec<u16>> {
    let mut classes: Vec<Vec<u16>> = Vec::new();
    for pair in pairs {
        let mut joined = roots_of(pack, *pair);
        let mut others = Vec::new();
        for class in classes {
            if class.iter().any(|symbol| joined.contains(symbol)) {
                joined.extend(class);
            } else {
                others.push(class);
            }
        }
        others.push(joined);
        classes = others;
    }
    classes
}

/// Each weighting marks the symbols of its own classes; those of classes that have left may bear anything.
fn parted(
    random: &mut Random,
    pack: &Pack,
    weighting: &Weighting,
    mut classes: Vec<Vec<u16>>,
    count: usize,
) -> Vec<Weighting> {
    random.shuffle(&mut classes);
    let mut shares: Vec<Vec<u16>> = vec![Vec::new(); count];
    for (index, class) in classes.into_iter().enumerate() {
        // Each has one class at least.
        let share = if index < count { index } else { random.below(count) };
        shares[share].extend(class);
    }
    let vary = random.chance(50);
    let of_share = |number: usize| {
        let mut part = weighting.clone();
        part.marked.retain(|(symbol, _), _| shares[number].contains(symbol));
        if vary {
            name_zeros(random, pack, &mut part);
        }
        mark_gone(random, pack, &shares[..number].concat(), &mut part);
        part
    };
    (0..count).map(of_share).collect()
}

/// Marks of pairs that have left: none, or such that these pairs would rise or pass the limit.
fn mark_gone(random: &mut Random, pack: &Pack, gone: &[u16], weighting: &mut Weighting) {
    if gone.is_empty() || !random.chance(40) {
        return;
    }
    let symbol = *random.pick(gone);
    let value = *random.pick(&[1, 2, 65_535, 65_535]);
    for place in 0..=pack.arities[usize::from(symbol)] {
        weighting.marked.insert((symbol, place), value);
    }
}

// ---------------------------------------------------------------- spoiling weightings

/// Aims at 17, and at 11, 12 and 13 under a later weighting; sometimes all stays good.
pub fn spoil_weightings(random: &mut Random, base: &mut Base) {
    let several: Vec<usize> =
        (0..base.components.len()).filter(|number| base.components[*number].weightings.len() > 1).collect();
    if several.is_empty() {
        return;
    }
    let component = &mut base.components[several[random.late(several.len())]];
    match random.below(20) {
        0..=6 => insert_idle(random, component),
        7 => exchange(random, component),
        8 => drop_one(random, component),
        9 => becomes_idle(random, component),
        10 => fill_up(random, component),
        11..=15 => heavy_later(random, &base.pack, component),
        _ => rule_rises_later(random, &base.pack, component),
    }
}

/// A weighting under which nothing falls: no marks, no weights at all, or one whose pairs have left.
fn idle(random: &mut Random, weightings: &[Weighting], at: usize) -> Weighting {
    match random.below(3) {
        0 => Weighting::default(),
        1 if at > 0 => weightings[random.below(at)].clone(),
        _ => Weighting { plain: random.pick(weightings).plain.clone(), ..Weighting::default() },
    }
}

/// First, between, or after the last pair has left.
fn insert_idle(random: &mut Random, component: &mut Component) {
    let count = component.weightings.len();
    let between = random.below(count + 1);
    let at = *random.pick(&[0, between, count]);
    let idle = idle(random, &component.weightings, at);
    component.weightings.insert(at, idle);
}

/// With the last one gone or idle some pair remains.
fn becomes_idle(random: &mut Random, component: &mut Component) {
    let at = random.late(component.weightings.len());
    component.weightings[at] = idle(random, &component.weightings, at);
}

fn drop_one(random: &mut Random, component: &mut Component) {
    let at = random.late(component.weightings.len());
    component.weightings.remove(at);
}

/// Pairs meet weights under which they rise, or pass the limit while they are present.
fn exchange(random: &mut Random, component: &mut Component) {
    let count = component.weightings.len();
    component.weightings.swap(random.below(count), random.late(count));
}

/// Up to the most weightings there may be, or one more.
fn fill_up(random: &mut Random, component: &mut Component) {
    let count = usize::from(WEIGHTING_LIMIT) + random.below(2);
    while component.weightings.len() < count {
        insert_idle(random, component);
    }
}

/// In a weighting after the first, constructors become great, mostly within the limit, and a pair's marks do.
fn heavy_later(random: &mut Random, pack: &Pack, component: &mut Component) {
    let at = random.range(1, component.weightings.len() - 1);
    let weighting = &mut component.weightings[at];
    for symbol in (0..pack.arities.len() as u16).filter(|symbol| !is_defined(pack, *symbol)) {
        if random.chance(70) {
            let places = 1..=pack.arities[usize::from(symbol)];
            weighting.plain.extend(places.map(|place| ((symbol, place), u16::MAX)));
        }
    }
    let value = *random.pick(&[1, 2, 2, u16::MAX]);
    for symbol in roots_of(pack, *random.pick(&component.pairs)) {
        let places = 0..=pack.arities[usize::from(symbol)];
        weighting.marked.extend(places.map(|place| ((symbol, place), value)));
    }
}

/// In a weighting after the first, a symbol counts what it did not.
fn rule_rises_later(random: &mut Random, pack: &Pack, component: &mut Component) {
    let at = random.range(1, component.weightings.len() - 1);
    let weighting = &mut component.weightings[at];
    for _ in 0..random.range(1, 3) {
        let symbol = random.below(pack.arities.len()) as u16;
        for place in 0..=pack.arities[usize::from(symbol)] {
            if random.chance(50) {
                weighting.plain.insert((symbol, place), random.range(1, 2) as u16);
            }
        }
    }
}

// ---------------------------------------------------------------- spoiling records

/// A way for records to stand against the rules for L.
#[derive(Clone, Copy, Debug, PartialEq)]
pub enum Way {
    /// The last weighting of a component is cut off, or C counts one more.
    Missing,
    /// C counts one fewer, or one more L comes.
    TooMany,
    OutOfSequence,
    /// An L in a component without weights or with one weighting.
    NotSeveral,
    BeforeThePairs,
    /// Byte 1, b or c of an L is not zero.
    NotZero,
    /// A W or M after an L does not rise.
    NotRising,
    /// The L alone is gone.
    Dropped,
    /// C counts 9 or more: this aims at 3.
    OverTheLimit,
}

pub const WAYS: [Way; 9] = [
    Way::Missing,
    Way::TooMany,
    Way::OutOfSequence,
    Way::NotSeveral,
    Way::BeforeThePairs,
    Way::NotZero,
    Way::NotRising,
    Way::Dropped,
    Way::OverTheLimit,
];

/// Spoils the records of a certificate in this way, if it has what is needed.
pub fn spoil_records(random: &mut Random, file: &mut Vec<u8>, way: Way) {
    match way {
        Way::Missing => missing(random, file),
        Way::TooMany => too_many(random, file),
        Way::OutOfSequence => out_of_sequence(random, file),
        Way::NotSeveral => not_several(random, file),
        Way::BeforeThePairs => before_the_pairs(random, file),
        Way::NotZero => not_zero(random, file),
        Way::NotRising => not_rising(random, file),
        Way::Dropped => dropped(random, file),
        Way::OverTheLimit => over_the_limit(random, file),
    }
}

/// The records of one component: from its C to the one after its last.
fn some_component(random: &mut Random, file: &[u8], allowed: impl Fn(u16) -> bool) -> Option<(usize, usize)> {
    let heads: Vec<usize> = indices(file, b"C");
    let fitting: Vec<usize> = (0..heads.len()).filter(|index| allowed(field(file, heads[*index], 4))).collect();
    if fitting.is_empty() {
        return None;
    }
    let index = fitting[random.late(fitting.len())];
    Some((heads[index], heads.get(index + 1).copied().unwrap_or(file.len() / 8)))
}

fn insert(file: &mut Vec<u8>, at: usize, record: [u8; 8]) {
    file.splice(at * 8..at * 8, record);
}

fn missing(random: &mut Random, file: &mut Vec<u8>) {
    let Some((head, end)) = some_component(random, file, |weightings| weightings > 0) else {
        return;
    };
    let last = (head..end).rev().find(|at| file[at * 8] == b'L');
    match last {
        Some(last) if random.chance(50) => drop(file.drain(last * 8..end * 8)),
        _ => {
            let count = field(file, head, 4);
            set_field(file, head, 4, (count + 1).min(WEIGHTING_LIMIT));
        }
    }
}

fn too_many(random: &mut Random, file: &mut Vec<u8>) {
    let Some((head, end)) = some_component(random, file, |weightings| weightings > 1) else {
        return;
    };
    let count = field(file, head, 4);
    if random.chance(50) {
        set_field(file, head, 4, count - 1);
    } else {
        insert(file, end, record(b'L', count, 0, 0));
    }
}

fn out_of_sequence(random: &mut Random, file: &mut [u8]) {
    if let Some(at) = some_record(random, file, b"L") {
        let number = field(file, at, 2);
        set_field(file, at, 2, *random.pick(&[0, number + 1, number - 1, number ^ 256, 8, 65_535]));
    }
}

/// A component with several is said to have one or none; or an L comes at the end of another, or right after its pairs.
fn not_several(random: &mut Random, file: &mut Vec<u8>) {
    let small = some_component(random, file, |weightings| weightings < 2);
    let several = some_component(random, file, |weightings| weightings > 1);
    match (small, several) {
        (Some((head, end)), several) if several.is_none() || random.chance(60) => {
            let pairs = usize::from(field(file, head, 6));
            let at = *random.pick(&[end, end.min(head + 1 + pairs)]);
            insert(file, at, record(b'L', random.range(0, 2) as u16, 0, 0));
        }
        (_, Some((head, _))) => set_field(file, head, 4, random.below(2) as u16),
        _ => {}
    }
}

/// Among the pairs, or after them if C counts one more.
fn before_the_pairs(random: &mut Random, file: &mut Vec<u8>) {
    let Some((head, _)) = some_component(random, file, |weightings| weightings > 1) else {
        return;
    };
    let pairs = field(file, head, 6);
    let before = random.below(usize::from(pairs));
    insert(file, head + 1 + before, record(b'L', 1, 0, 0));
}

fn not_zero(random: &mut Random, file: &mut [u8]) {
    if let Some(at) = some_record(random, file, b"L") {
        match random.below(3) {
            0 => file[at * 8 + 1] = random.range(1, 255) as u8,
            1 => set_field(file, at, 4, *random.pick(&[1, 2, 256, 65_535])),
            _ => set_field(file, at, 6, *random.pick(&[1, 2, 256, 65_535])),
        }
    }
}

/// One of the weights after an L is written twice, or changes places with the next of its kind.
fn not_rising(random: &mut Random, file: &mut Vec<u8>) {
    let Some(start) = some_record(random, file, b"L") else {
        return;
    };
    let end = (start + 1..file.len() / 8).find(|at| !b"WM".contains(&file[at * 8])).unwrap_or(file.len() / 8);
    if end == start + 1 {
        return;
    }
    let at = random.range(start + 1, end - 1);
    if at + 1 < end && file[at * 8] == file[at * 8 + 8] && random.chance(50) {
        for byte in 0..8 {
            file.swap(at * 8 + byte, at * 8 + 8 + byte);
        }
    } else {
        let copy: [u8; 8] = std::array::from_fn(|byte| file[at * 8 + byte]);
        insert(file, at, copy);
    }
}

fn dropped(random: &mut Random, file: &mut Vec<u8>) {
    if let Some(at) = some_record(random, file, b"L") {
        file.drain(at * 8..at * 8 + 8);
    }
}

fn over_the_limit(random: &mut Random, file: &mut [u8]) {
    if let Some((head, _)) = some_component(random, file, |weightings| weightings > 0) {
        set_field(file, head, 4, *random.pick(&[9, 9, 10, 16, 256, 257, 65_535]));
    }
}
