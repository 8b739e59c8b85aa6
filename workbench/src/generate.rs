//! Seeded cases: packs, certificates, list rooms, arc questions and solvers' texts of all kinds and sizes.

pub mod lexicographic;
pub mod limits;
pub mod packs;
pub mod repeated;
pub mod spoil;
pub mod texts;
pub mod weightings;

use crate::checker::{judge_pack, pairs, root, Pack, Pair};
use crate::encode::{certificate_bytes, pack_bytes};
use crate::random::Random;
use packs::{Base, Size};
use texts::TextQuestion;

/// Two files, a list's room, some arc questions and some texts.
#[derive(Clone, Debug)]
pub struct Case {
    pub pack: Vec<u8>,
    pub certificate: Vec<u8>,
    pub room: usize,
    pub questions: Vec<[u32; 4]>,
    pub texts: Vec<TextQuestion>,
}

/// The case of a seed, always the same.
pub fn case(seed: u64) -> Case {
    let mut random = Random::new(seed);
    // Seeds in a row shall not share their first numbers.
    random = Random::new(random.bits() ^ seed.rotate_left(32));
    let random = &mut random;
    let (mut base, mut family) = some_base(random);
    // Packs without pairs say little about certificates: they are kept rare.
    for _ in 0..4 {
        if base.components.is_empty() && random.chance(90) {
            (base, family) = some_base(random);
        }
    }
    let (mut pack, mut certificate) = match family {
        _ if random.chance(family.kept()) => files(&base),
        Family::SeveralWeightings => spoilt_weightings(random, &mut base),
        Family::Usual | Family::NearLimit | Family::Repeated => spoilt_files(random, &mut base),
    };
    // No room behind the last byte, so that a memory checker sees every read past it.
    pack.shrink_to_fit();
    certificate.shrink_to_fit();
    let room = room(random, &pack);
    let questions = questions(random, &pack);
    let texts = texts::questions(random, &base.pack);
    Case { pack, certificate, room, questions, texts }
}

/// What a base is made for, which says how it is spoilt.
#[derive(Clone, Copy)]
enum Family {
    Usual,
    NearLimit,
    SeveralWeightings,
    Repeated,
}

impl Family {
    /// Percent of the bases that are left as they are made.
    fn kept(self) -> usize {
        match self {
            Family::Usual => 4,
            // Nearly all spoils would bring them away from the limit of forms.
            Family::NearLimit => 75,
            Family::SeveralWeightings => 30,
            Family::Repeated => 60,
        }
    }
}

/// Percent of the bases that are made for several weightings.
const SEVERAL: usize = 15;
/// Percent of the others that are made for variables that stand twice on a left side.
const REPEATED: usize = 20;

/// A base of a size by chance; great ones are rare, as they take long.
fn some_base(random: &mut Random) -> (Base, Family) {
    if random.chance(SEVERAL) {
        return (several_base(random), Family::SeveralWeightings);
    }
    if random.chance(REPEATED) {
        return (repeated::repeated(random), Family::Repeated);
    }
    let base = match random.below(1_000) {
        0..=234 => packs::guided(random, Size::Tiny),
        235..=601 => packs::guided(random, Size::Small),
        602..=831 => packs::guided(random, Size::Typical),
        832..=843 => packs::guided(random, Size::Large),
        844..=846 => packs::guided(random, Size::Limit),
        847 => dense_base(random),
        848..=930 => return (limits::near_limit(random), Family::NearLimit),
        931..=960 => packs::unguided(random, Size::Tiny),
        961..=995 => packs::unguided(random, Size::Small),
        996..=997 => packs::unguided(random, Size::Typical),
        _ => Base { pack: Pack::default(), components: Vec::new() },
    };
    (base, Family::Usual)
}

/// Pairs that leave in lexicographic order, the most pairs under two weightings, or a usual pack whose components are
/// parted.
fn several_base(random: &mut Random) -> Base {
    let size = match random.below(1_000) {
        0..=699 => return lexicographic::lexicographic(random),
        700..=703 => return packs::dense_in_two(random, 1),
        704..=706 => Size::Large,
        707..=800 => Size::Typical,
        _ => Size::Small,
    };
    let mut base = packs::guided(random, size);
    let most = random.range(2, 8);
    weightings::split(random, &mut base, most);
    base
}

/// Weightings or the records that begin them are spoilt, or the files as others are.
fn spoilt_weightings(random: &mut Random, base: &mut Base) -> (Vec<u8>, Vec<u8>) {
    match random.below(100) {
        0..=44 => {
            weightings::spoil_weightings(random, base);
            files(base)
        }
        45..=79 => {
            let (pack, mut certificate) = files(base);
            let way = *random.pick(&weightings::WAYS);
            weightings::spoil_records(random, &mut certificate, way);
            (pack, certificate)
        }
        _ => spoilt_files(random, base),
    }
}

/// Weights, records or bytes are spoilt.
fn spoilt_files(random: &mut Random, base: &mut Base) -> (Vec<u8>, Vec<u8>) {
    match random.below(85) {
        0..=51 => {
            spoil_weights(random, base);
            files(base)
        }
        52..=74 => spoil_records(random, base),
        _ => damaged(random, base),
    }
}

/// 2,047 pairs and accepted, 2,048 and refused, or some fewer.
fn dense_base(random: &mut Random) -> Base {
    let holes = *random.pick(&[1, 1, 0, 2, 100]);
    packs::dense(random, holes)
}

fn files(base: &Base) -> (Vec<u8>, Vec<u8>) {
    (pack_bytes(&base.pack), certificate_bytes(&base.components))
}

/// Aims at 8 to 13; sometimes at two of them, so that their order matters.
fn spoil_weights(random: &mut Random, base: &mut Base) {
    for _ in 0..*random.pick(&[1, 1, 1, 2, 3]) {
        let aim = *random.pick(&[8, 9, 9, 9, 10, 10, 10, 11, 11, 11, 12, 12, 12, 13, 13]);
        spoil::spoil_base(random, base, aim);
    }
}

/// Aims at 1 to 7; sometimes at two of them.
fn spoil_records(random: &mut Random, base: &mut Base) -> (Vec<u8>, Vec<u8>) {
    let aims: Vec<u32> =
        (0..*random.pick(&[1, 1, 1, 1, 2])).map(|_| *random.pick(&[1, 2, 2, 3, 3, 4, 5, 6, 7])).collect();
    for aim in &aims {
        if *aim >= 5 {
            spoil::spoil_base(random, base, *aim);
        }
    }
    let (mut pack, mut certificate) = files(base);
    for aim in aims {
        let on_pack = random.chance(50);
        match aim {
            1 if on_pack => spoil::cut(random, &mut pack, true),
            1 => spoil::cut(random, &mut certificate, false),
            2 if on_pack => spoil::stray(random, &mut pack),
            2 => spoil::stray(random, &mut certificate),
            3 if on_pack => spoil::pack_out_of_range(random, &mut pack),
            3 => spoil::certificate_out_of_range(random, &mut certificate, &base.pack),
            4 => spoil::broken(random, &mut pack),
            _ => {}
        }
    }
    (pack, certificate)
}

fn damaged(random: &mut Random, base: &Base) -> (Vec<u8>, Vec<u8>) {
    let (mut pack, mut certificate) = files(base);
    match random.below(5) {
        0 | 1 => spoil::damage(random, &mut pack),
        2 | 3 => spoil::damage(random, &mut certificate),
        _ => {
            spoil::damage(random, &mut pack);
            spoil::damage(random, &mut certificate);
        }
    }
    (pack, certificate)
}

// ---------------------------------------------------------------- rooms and questions

/// A room that just suffices, just fails, or any.
fn room(random: &mut Random, pack: &[u8]) -> usize {
    let count = judge_pack(pack).map_or(random.below(8), |pack| pairs(&pack).len());
    let exact = count * 8;
    match random.below(8) {
        0 | 1 => exact,
        2 => exact.saturating_sub(1),
        3 => exact + random.range(1, 7),
        4 => exact.saturating_sub(8),
        5 => exact + random.below(100),
        6 => random.below(exact + 1),
        _ => *random.pick(&[0, 7, 8, 16_384, 16_383, 20_000]),
    }
}

/// Questions about pairs that exist, mostly, and some that do not.
fn questions(random: &mut Random, pack: &[u8]) -> Vec<[u32; 4]> {
    let (pack, all) = match judge_pack(pack) {
        Ok(pack) => {
            let all = pairs(&pack);
            (pack, all)
        }
        Err(_) => (Pack::default(), Vec::new()),
    };
    (0..3).map(|_| question(random, &pack, &all)).collect()
}

fn question(random: &mut Random, pack: &Pack, all: &[Pair]) -> [u32; 4] {
    if all.is_empty() || random.chance(10) {
        return [0; 4].map(|_| *random.pick(&[0, 1, 2, 3, 31, 32, 63, 64, 65_535, 65_536, u32::MAX]));
    }
    let from = *random.pick(all);
    let targets = same_root(random, pack, all, from);
    let to = *random.pick(&targets);
    let mut question = [from.0, from.1, to.0, to.1].map(u32::from);
    if random.chance(12) {
        let at = random.below(4);
        // A number whose low 16 bits name a pair is still none.
        question[at] = question[at].wrapping_add(*random.pick(&[1, 65_536, u32::MAX, 1 << 31]));
    }
    question
}

/// Mostly the pairs whose left has the root of this one's right.
fn same_root(random: &mut Random, pack: &Pack, all: &[Pair], from: Pair) -> Vec<Pair> {
    let wanted = root(crate::checker::pair_right(pack, from));
    let same = |pair: &Pair| root(&pack.rules[usize::from(pair.0)].left) == wanted;
    let same: Vec<Pair> = all.iter().copied().filter(same).collect();
    if same.is_empty() || random.chance(20) {
        all.to_vec()
    } else {
        same
    }
}
