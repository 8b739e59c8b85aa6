//! Several weightings for one component: what they are answered, and that the generated cases meet each way of it.

use std::collections::BTreeMap;
use workbench::checker::{self, judge_pack, Component, Pack, Pair, Weighting};
use workbench::encode::{certificate_bytes, pack_bytes, record};
use workbench::generate::case;
use workbench::generate::lexicographic::of_levels;
use workbench::generate::packs::{guided, Size};
use workbench::generate::weightings::{split, spoil_records, Way, WAYS};
use workbench::random::Random;
use workbench::text::{assemble_certificate, assemble_pack, disassemble_certificate, mode_of, Mode};
use workbench::tuned;

/// Both checkers, which agree.
fn check(pack: &[u8], certificate: &[u8]) -> u32 {
    let answer = checker::check(pack, certificate);
    assert_eq!(answer, tuned::check(pack, certificate));
    answer
}

// ---------------------------------------------------------------- by hand

/// The first pair falls in its first argument, the second only in its second; copying keeps one weighting from doing.
const PACK: &str =
    "symbols s/1 tree/2 f/2\nvariables x y z\nf(s(x), y) -> f(x, tree(y, y))\nf(x, tree(y, z)) -> f(x, z)";
const FIRST: &str = "weight s = 1 + x1\nmarked f = x1";
const SECOND: &str = "weight tree = 1 + x1 + x2\nmarked f = x2";
const IDLE: &str = "weight s = 1 + x1";

/// One component with both pairs under these weightings.
fn text(weightings: &[&str]) -> String {
    format!("symbols s/1 tree/2 f/2\ncomponent\npair 0 0\npair 1 0\n{}\n", weightings.join("\nweighting\n"))
}

fn bytes(weightings: &[&str]) -> Vec<u8> {
    assemble_certificate(&text(weightings), Mode::Strict).unwrap()
}

fn answer(weightings: &[&str]) -> u32 {
    check(&assemble_pack(PACK, Mode::Strict).unwrap(), &bytes(weightings))
}

#[test]
fn pairs_leave_one_after_the_other() {
    assert_eq!(answer(&[FIRST, SECOND]), 0);
    assert_eq!(answer(&[FIRST]), 13);
    assert_eq!(answer(&[SECOND]), 13);
    assert_eq!(answer(&[SECOND, FIRST]), 13);
    assert_eq!(answer(&["marked f = 1", FIRST]), 17);
}

/// An idle weighting is 17 wherever it stands, but the last of all is 13 as long as a pair is present.
#[test]
fn idle_weightings_are_met() {
    assert_eq!(answer(&[IDLE, FIRST, SECOND]), 17);
    assert_eq!(answer(&["", FIRST, SECOND]), 17);
    assert_eq!(answer(&[FIRST, IDLE, SECOND]), 17);
    assert_eq!(answer(&[FIRST, FIRST, SECOND]), 17);
    assert_eq!(answer(&[FIRST, SECOND, IDLE]), 17);
    assert_eq!(answer(&[FIRST, SECOND, ""]), 17);
    assert_eq!(answer(&[FIRST, SECOND, SECOND]), 17);
    assert_eq!(answer(&[FIRST, IDLE]), 13);
    // The first idle one is met before the pair that remains after the last.
    assert_eq!(answer(&[IDLE, IDLE]), 17);
    assert_eq!(answer(&[IDLE]), 13);
}

/// 11, 12, 13 and 17 of one weighting come before those of the next.
#[test]
fn weightings_are_judged_in_turn() {
    // tree counts nothing: y on the left of rule 0 is less than on its right, where f counts both.
    let rising_rule = "weight tree = 2*x1\nweight f = x2";
    let heavy_rule = "weight tree = 65535*x1 + 65535*x2\nweight f = 65535*x2";
    let rising_pair = "weight tree = 1 + x1 + x2\nmarked f = x2";
    assert_eq!(answer(&[FIRST, rising_rule]), 12);
    assert_eq!(answer(&[IDLE, rising_rule]), 17);
    assert_eq!(answer(&[rising_pair, rising_rule]), 13);
    assert_eq!(answer(&[rising_rule, heavy_rule]), 12);
    assert_eq!(answer(&[FIRST, heavy_rule]), 11);
    assert_eq!(answer(&[FIRST, SECOND, rising_rule]), 12);
    assert_eq!(answer(&[FIRST, SECOND, heavy_rule]), 11);
}

/// A pair that left is not looked at again: it may rise and pass the limit.
#[test]
fn pairs_that_left_are_not_looked_at() {
    // 65,535 times tree(y, y) of pair (0,0) passes the limit, tree(y, z) of pair (1,0) does not.
    let great = "weight tree = 1 + 32769*x1 + 32769*x2\nmarked f = 65535*x2";
    assert_eq!(answer(&[FIRST, great]), 0);
    assert_eq!(answer(&[great, FIRST]), 11);
    assert_eq!(answer(&[great]), 11);
}

/// The records themselves: numbers, counts, fields and order.
#[test]
fn strays_are_refused() {
    let pack = assemble_pack(PACK, Mode::Strict).unwrap();
    let good = bytes(&[FIRST, SECOND]);
    let (records, _) = good.as_chunks::<8>();
    let head = records.iter().position(|record| record[0] == b'L').unwrap();
    assert_eq!(records[head], record(b'L', 1, 0, 0));
    assert_eq!(records[0], record(b'C', 0, 2, 2));
    let with = |at: usize, other: [u8; 8]| {
        let mut records = records.to_vec();
        records[at] = other;
        check(&pack, &records.concat())
    };
    for number in [0, 2, 257, 65_535] {
        assert_eq!(with(head, record(b'L', number, 0, 0)), 2);
    }
    assert_eq!(with(head, record(b'L', 1, 1, 0)), 2);
    assert_eq!(with(head, record(b'L', 1, 0, 1)), 2);
    assert_eq!(with(head, [b'L', 1, 1, 0, 0, 0, 0, 0]), 2);
    for weightings in [1, 3, 8] {
        assert_eq!(with(0, record(b'C', 0, weightings, 2)), 2);
    }
    for weightings in [9, 10, 256, 65_535] {
        assert_eq!(with(0, record(b'C', 0, weightings, 2)), 3);
    }
    // Without weights, two pairs are met at C.
    assert_eq!(with(0, record(b'C', 0, 0, 2)), 2);
    assert_eq!(check(&pack, &records[..head].concat()), 2);
    assert_eq!(check(&pack, &[&records[..2], &records[head..head + 1], &records[2..]].concat().concat()), 2);
    let next = [record(b'C', 1, 0, 1), record(b'P', 1, 0, 0)];
    assert_eq!(check(&pack, &[&records[..head], &next].concat().concat()), 2);
    assert_eq!(check(&pack, &[records, &[record(b'L', 2, 0, 0)]].concat().concat()), 2);
}

/// L may follow P, W, M or L, and all that may stand after W may stand after it.
#[test]
fn weightings_may_name_nothing() {
    let pack = assemble_pack(PACK, Mode::Strict).unwrap();
    for (text, wanted) in [
        (text(&["", "", ""]), 17),
        (text(&["weight s = 1", "marked f = x1", "weight s = 1"]), 17),
        (text(&[FIRST, "marked f = 1", ""]), 17),
        (text(&[""; 8]), 17),
        (text(&[FIRST, ""]) + "component without weights\npair 0 0\n", 8),
    ] {
        assert_eq!(check(&pack, &assemble_certificate(&text, Mode::Strict).unwrap()), wanted, "{text}");
    }
}

// ---------------------------------------------------------------- generated bases

#[test]
fn bases_with_several_weightings_are_accepted() {
    for levels in 2..=8 {
        let mut accepted = 0;
        for seed in 0..40 {
            let base = of_levels(&mut Random::new(seed), levels);
            let most = base.components.iter().map(|component| component.weightings.len()).max();
            let answer = check(&pack_bytes(&base.pack), &certificate_bytes(&base.components));
            accepted += usize::from(answer == 0 && most == Some(levels));
        }
        assert!(accepted > 10, "{accepted} of 40 with {levels} weightings are accepted");
    }
    for seed in 0..200 {
        let mut random = Random::new(seed);
        let mut base = guided(&mut random, Size::Typical);
        split(&mut random, &mut base, 8);
        let (pack, certificate) = (pack_bytes(&base.pack), certificate_bytes(&base.components));
        assert_eq!(check(&pack, &certificate), 0, "seed {seed}");
        let text = disassemble_certificate(&certificate, &pack);
        assert!(mode_of(&text) == Mode::Strict, "{text}");
        assert_eq!(assemble_certificate(&text, Mode::Strict).unwrap(), certificate, "{text}");
    }
}

/// Nearly every spoil of the records hits its aim.
#[test]
fn spoilt_records_are_refused() {
    for way in WAYS {
        let wanted = if way == Way::OverTheLimit { checker::OUT_OF_RANGE } else { checker::STRAY_RECORD };
        let mut hit = 0;
        for seed in 0..100 {
            let mut random = Random::new(seed);
            let base = of_levels(&mut random, 2 + (seed % 7) as usize);
            let mut certificate = certificate_bytes(&base.components);
            spoil_records(&mut random, &mut certificate, way);
            hit += usize::from(check(&pack_bytes(&base.pack), &certificate) == wanted);
        }
        assert!(hit > 60, "{way:?}: {hit} of 100");
    }
}

// ---------------------------------------------------------------- what the cases meet

/// So many cases are looked at; `compare` has twenty times as many.
const CASES: u64 = 10_000;

/// What the cases meet, and how often they do at least.
const MET: [(&str, usize); 24] = [
    ("2: missing at the next C", 10),
    ("2: missing at the end", 10),
    ("2: one too many", 10),
    ("2: out of sequence", 10),
    ("2: with no or one weighting", 10),
    ("2: before the pairs are all there", 10),
    ("2: a field or byte 1 is not zero", 10),
    ("2: W or M does not rise after it", 10),
    ("3: 9 or more weightings", 10),
    ("accepted with 2 weightings", 100),
    ("accepted with 3 weightings", 40),
    ("accepted with 4 weightings", 20),
    ("accepted with 5 weightings", 20),
    ("accepted with 6 weightings", 10),
    ("accepted with 7 weightings", 10),
    ("accepted with 8 weightings", 10),
    ("accepted: weights start lower again", 100),
    ("accepted: a pair that left passes the limit", 10),
    ("11: a pair present passes the limit under a later weighting", 10),
    ("12: under a later weighting", 10),
    ("13: a pair rises under a later weighting", 10),
    ("13: a pair remains after the last of several", 10),
    ("17: while pairs are present", 50),
    ("17: after the last pair has left", 10),
];

#[test]
fn cases_meet_every_way() {
    let mut counts: BTreeMap<String, usize> = BTreeMap::new();
    for seed in 0..CASES {
        let case = case(seed);
        let Ok(pack) = judge_pack(&case.pack) else {
            continue;
        };
        for what in met(&pack, &case.pack, &case.certificate) {
            *counts.entry(what).or_default() += 1;
        }
    }
    for (what, least) in MET {
        let count = counts.get(what).copied().unwrap_or(0);
        assert!(count >= least, "{what}: {count} times in {CASES} cases; {counts:#?}");
    }
}

/// What one case with a good pack meets.
fn met(pack: &Pack, file: &[u8], certificate: &[u8]) -> Vec<String> {
    let (records, _) = certificate.as_chunks::<8>();
    let answer = check(file, certificate);
    match answer {
        checker::STRAY_RECORD => stray(records).map(|why| format!("2: {why}")).into_iter().collect(),
        checker::OUT_OF_RANGE => over(records).into_iter().collect(),
        0 => accepted(pack, certificate, records),
        checker::HEAVY.. => judged(pack, certificate, answer).into_iter().collect(),
        _ => Vec::new(),
    }
}

/// Kind, a, b, c.
fn fields(record: &[u8; 8]) -> (u8, [u16; 3]) {
    (record[0], [2, 4, 6].map(|at| u16::from_le_bytes([record[at], record[at + 1]])))
}

/// Why the first L that is stray or missing is so; none if something else is stray.
fn stray(records: &[[u8; 8]]) -> Option<&'static str> {
    let (mut weightings, mut begun, mut pairs) = (0, 1, 0);
    let mut last: Option<(u8, u16, u16)> = None;
    for record in records {
        let (kind, [a, b, c]) = fields(record);
        match kind {
            b'L' if pairs > 0 => return Some("before the pairs are all there"),
            b'L' if record[1] != 0 || b != 0 || c != 0 => return Some("a field or byte 1 is not zero"),
            b'L' if weightings < 2 => return Some("with no or one weighting"),
            b'L' if begun >= weightings => return Some("one too many"),
            b'L' if a != begun => return Some("out of sequence"),
            b'L' => begun += 1,
            b'C' if pairs == 0 && begun < weightings => return Some("missing at the next C"),
            b'C' if pairs == 0 => (weightings, begun, pairs) = (b, 1, c),
            b'P' if pairs > 0 => pairs -= 1,
            b'W' | b'M'
                if pairs == 0 && begun > 1 && last.is_some_and(|last| last.0 == kind && last >= (kind, a, b)) =>
            {
                return Some("W or M does not rise after it")
            }
            b'W' | b'M' if pairs == 0 => {}
            _ => return None,
        }
        last = Some((kind, a, b));
    }
    (pairs == 0 && begun < weightings).then_some("missing at the end")
}

fn over(records: &[[u8; 8]]) -> Option<String> {
    let mut heads = records.iter().map(fields).filter(|(kind, _)| *kind == b'C');
    heads.any(|(_, [_, weightings, _])| weightings > 8).then(|| "3: 9 or more weightings".to_string())
}

fn accepted(pack: &Pack, certificate: &[u8], records: &[[u8; 8]]) -> Vec<String> {
    let components = checker::read_certificate(certificate, pack).unwrap();
    let most = components.iter().map(|component| component.weightings.len()).max().unwrap_or(0);
    let mut met = vec![format!("accepted with {most} weightings")];
    let key = |record: &[u8; 8]| fields(record).1[..2].to_vec();
    let lower =
        |three: &[[u8; 8]]| three[1][0] == b'L' && three[0][0] == three[2][0] && key(&three[2]) <= key(&three[0]);
    let several = most > 1
        && (records.windows(3).any(lower) || records.windows(2).any(|two| two[0][0] == b'M' && two[1][0] == b'L'));
    met.extend(several.then(|| "accepted: weights start lower again".to_string()));
    let heavy = components.iter().any(|component| heavy_after_leaving(pack, component));
    met.extend(heavy.then(|| "accepted: a pair that left passes the limit".to_string()));
    met
}

/// Left less right: none if a side passes the limit, else whether it rises and whether it falls.
fn moves(pack: &Pack, pair: Pair, weighting: &Weighting) -> Option<(bool, bool)> {
    let left = checker::marked_form(checker::pair_left(pack, pair), weighting).ok()?;
    let right = checker::marked_form(checker::pair_right(pack, pair), weighting).ok()?;
    Some((!checker::at_least(&left, &right), checker::greater(&left, &right)))
}

fn heavy_after_leaving(pack: &Pack, component: &Component) -> bool {
    let mut gone: Vec<Pair> = Vec::new();
    let mut heavy = false;
    for weighting in &component.weightings {
        heavy |= gone.iter().any(|pair| moves(pack, *pair, weighting).is_none());
        let falls = |pair: &&Pair| moves(pack, **pair, weighting).is_some_and(|moves| moves.1);
        gone.extend(component.pairs.iter().filter(falls));
    }
    heavy
}

/// Where the first component that is refused is so, if it has several weightings and this is not the first.
fn judged(pack: &Pack, certificate: &[u8], answer: u32) -> Option<String> {
    for component in checker::read_certificate(certificate, pack).unwrap() {
        let mut present = component.pairs.clone();
        for (number, weighting) in component.weightings.iter().enumerate() {
            let now: Vec<Option<(bool, bool)>> = present.iter().map(|pair| moves(pack, *pair, weighting)).collect();
            let rules = rules_under(pack, weighting);
            let (heavy, rises) = (now.contains(&None), now.iter().flatten().any(|moves| moves.0));
            let falls = now.iter().flatten().filter(|moves| moves.1).count();
            let last = number + 1 == component.weightings.len();
            let why = match answer {
                checker::HEAVY if heavy && rules.is_some() && number > 0 => {
                    "a pair present passes the limit under a later weighting"
                }
                checker::RULE_RISES if rules == Some(false) && number > 0 => "under a later weighting",
                checker::PAIR_STAYS if rises && number > 0 => "a pair rises under a later weighting",
                checker::PAIR_STAYS if last && number > 0 && falls < present.len() => {
                    "a pair remains after the last of several"
                }
                checker::IDLE_WEIGHTING if falls == 0 && present.is_empty() => "after the last pair has left",
                checker::IDLE_WEIGHTING if falls == 0 => "while pairs are present",
                _ if heavy || rules != Some(true) || rises => return None,
                _ => "",
            };
            if !why.is_empty() {
                return Some(format!("{answer}: {why}"));
            }
            present.retain(|pair| !moves(pack, *pair, weighting).is_some_and(|moves| moves.1));
        }
    }
    None
}

/// None if a side passes the limit, else whether no rule rises.
fn rules_under(pack: &Pack, weighting: &Weighting) -> Option<bool> {
    let mut all = true;
    for rule in &pack.rules {
        let left = checker::form(&rule.left, &weighting.plain).ok()?;
        let right = checker::form(&rule.right, &weighting.plain).ok()?;
        all &= checker::at_least(&left, &right);
    }
    Some(all)
}
