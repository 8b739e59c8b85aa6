//! Seeded texts for the solvers' reader, good, damaged, at the limits and hostile, and the rooms lent for their packs.

mod damage;
mod edges;
mod printed;

use crate::checker::{Pack, PACK_LIMIT};
use crate::random::Random;
use crate::slow_texts::{self, Side};
use crate::solver_text::{read_text, TEXT_LIMIT};

/// A text, and how many bytes are lent for its pack.
#[derive(Clone, Debug)]
pub struct TextQuestion {
    pub text: Vec<u8>,
    pub room: usize,
}

/// One text or two; the pack lends its rules to some.
pub fn questions(random: &mut Random, pack: &Pack) -> Vec<TextQuestion> {
    (0..*random.pick(&[1, 1, 2])).map(|_| question(random, pack)).collect()
}

fn question(random: &mut Random, pack: &Pack) -> TextQuestion {
    let mut text = some_text(random, pack);
    // No room behind the last byte, so that a memory checker sees every read past it.
    text.shrink_to_fit();
    let room = room(random, &text);
    TextQuestion { text, room }
}

/// Great texts are rare, as they take long.
fn some_text(random: &mut Random, pack: &Pack) -> Vec<u8> {
    match random.below(1_000) {
        0..=379 => good(random, pack),
        380..=609 => damaged(random, pack),
        610..=779 => edges::at_limit(random).text(random),
        780..=929 => edges::over_limit(random).text(random),
        930..=969 => over_and_damaged(random),
        970..=991 => hostile(random, 1_500),
        992..=997 => hostile(random, TEXT_LIMIT),
        _ => of_greatest_length(random, pack),
    }
}

/// Rules of a text made from a pack: more would make texts long.
const RULES: usize = 5;

/// The first rules of the pack under names by chance, as it may be printed.
fn words(random: &mut Random, pack: &Pack) -> printed::Words {
    let count = if random.chance(2) { pack.rules.len() } else { RULES };
    printed::words_of(random, &pack.arities, &pack.rules[..count.min(pack.rules.len())])
}

fn good(random: &mut Random, pack: &Pack) -> Vec<u8> {
    words(random, pack).text(random)
}

/// Words or bytes are spoilt; sometimes several of them, sometimes to no harm.
fn damaged(random: &mut Random, pack: &Pack) -> Vec<u8> {
    let mut words = words(random, pack);
    if random.chance(60) {
        damage::words(random, &mut words);
        return words.text(random);
    }
    let mut text = words.text(random);
    for _ in 0..*random.pick(&[1, 1, 1, 2, 5]) {
        damage::bytes(random, &mut text);
    }
    text
}

/// 15 and 16 in one text: 15 is the answer wherever it stands.
fn over_and_damaged(random: &mut Random) -> Vec<u8> {
    let mut words = edges::over_limit(random);
    damage::words(random, &mut words);
    words.text(random)
}

/// As long as a text may be, or one byte longer.
fn of_greatest_length(random: &mut Random, pack: &Pack) -> Vec<u8> {
    let length = TEXT_LIMIT + random.below(2);
    let mut text = slow_texts::padded(good(random, pack), length);
    if random.chance(50) {
        // The blanks come first.
        text.reverse();
        let blanks = text.iter().take_while(|byte| **byte == b' ').count();
        text[blanks..].reverse();
    }
    text
}

/// More names in VAR than the library's table holds, and a rule with one of the last of them or another.
fn crowded(random: &mut Random) -> Vec<u8> {
    let mut names = slow_texts::overfull_names();
    random.shuffle(&mut names);
    let last = names.len() - 400;
    let asked = if random.chance(70) { random.pick(&names[last..]).clone() } else { "a".to_string() };
    let list = *random.pick(&["", "()", "(yyy)"]);
    format!("(VAR {})(RULES zzz({asked}{list})->yyy)", names.join(" ")).into_bytes()
}

/// Texts that no writer of rules would write, up to that length.
fn hostile(random: &mut Random, most: usize) -> Vec<u8> {
    let length = if most == TEXT_LIMIT && random.chance(50) { most } else { random.range(40, most) };
    let side = *random.pick(&[Side::Left, Side::Right]);
    let opening = *random.pick(&["a(", "f(b,", "f(b(),", "a (\n"]);
    let (many, few) = (length / 5, random.below(20));
    match random.below(8) {
        0 => slow_texts::closed(side, opening, length),
        1 => slow_texts::unclosed(side, opening, length),
        2 if most == TEXT_LIMIT && random.chance(30) => crowded(random),
        2 => slow_texts::long_var(length, random.chance(50)),
        3 => slow_texts::lookups(&slow_texts::distinct(length / 8, 1), &slow_texts::distinct(many, 3), length),
        4 => slow_texts::lookups(&slow_texts::distinct(few, 1), &slow_texts::distinct(many, 2), length),
        5 => format!("(VAR)(RULES f({}", "a,".repeat(length / 2)).into_bytes(),
        6 => (0..length).map(|_| *random.pick(b"()")).collect(),
        _ => (0..length).map(|_| *random.pick(b"ab(),  ->\n")).collect(),
    }
}

/// A room that just suffices, just fails, or any.
fn room(random: &mut Random, text: &[u8]) -> usize {
    let exact = read_text(text, usize::MAX).map_or(random.below(100), |pack| pack.len());
    match random.below(10) {
        0 | 1 => exact,
        2 | 3 => exact.saturating_sub(1),
        4 => exact + 1,
        5 => exact.saturating_sub(8),
        6 => exact + random.below(100),
        7 => random.below(exact + 1),
        8 => 0,
        _ => *random.pick(&[7, 8, PACK_LIMIT - 1, PACK_LIMIT, PACK_LIMIT + 1]),
    }
}
