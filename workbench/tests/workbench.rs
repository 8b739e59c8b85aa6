//! Quick tests of the workbench itself; the long runs are the programs `compare` and `check-examples`.

use workbench::generate::limits::{of_shape, Shape, SHAPES};
use workbench::generate::packs::{dense, dense_in_two, guided, Base, Size};
use workbench::generate::{case, spoil};
use workbench::graph::{graph, is_ordered};
use workbench::random::Random;
use workbench::text::{disassemble_certificate, disassemble_pack};
use workbench::{checker, encode, slow, tuned};

/// No bytes whatever make an implementation panic, and they agree.
#[test]
fn any_bytes_are_answered() {
    let mut random = Random::new(9);
    for _ in 0..20_000 {
        let mut file = |kinds: &[u8]| -> Vec<u8> {
            let records = random.below(12);
            let mut bytes = Vec::new();
            for _ in 0..records {
                let mut field = || *random.pick(&[0, 0, 0, 1, 1, 2, 3, 8, 9, 16, 32, 33, 64, 65_535]);
                let (a, b, c) = (field(), field(), field());
                bytes.extend(encode::record(*random.pick(kinds), a, b, c));
            }
            if random.chance(30) {
                spoil::damage(&mut random, &mut bytes);
            }
            bytes
        };
        let (pack, certificate) = (file(b"SSSRFFV"), file(b"CCPWML"));
        assert_eq!(checker::check(&pack, &certificate), tuned::check(&pack, &certificate));
        disassemble_pack(&pack);
        disassemble_certificate(&certificate, &pack);
    }
}

/// The generator's guided packs come with accepted certificates, up to the most pairs.
#[test]
fn guided_certificates_are_accepted() {
    for (size, count) in
        [(Size::Tiny, 100), (Size::Small, 100), (Size::Typical, 50), (Size::Large, 10), (Size::Limit, 3)]
    {
        for seed in 0..count {
            let base = guided(&mut Random::new(seed), size);
            let files = (encode::pack_bytes(&base.pack), encode::certificate_bytes(&base.components));
            assert_eq!(checker::check(&files.0, &files.1), 0, "{size:?} {seed}");
        }
    }
    let base = dense(&mut Random::new(3), 1);
    assert_eq!(checker::pairs(&base.pack).len(), 2_047);
    assert_eq!(checker::check(&encode::pack_bytes(&base.pack), &encode::certificate_bytes(&base.components)), 0);
    assert_eq!(checker::pairs(&dense(&mut Random::new(3), 0).pack).len(), 2_048);
    let base = dense_in_two(&mut Random::new(4), 1);
    assert!(base.components.iter().any(|component| component.weightings.len() == 2));
    assert_eq!(checker::check(&encode::pack_bytes(&base.pack), &encode::certificate_bytes(&base.components)), 0);
}

/// Bases near the limit of forms are heavy about as often as not; the others are judged to their end, and most accepted.
#[test]
fn bases_near_the_limit_fall_on_both_sides() {
    for shape in SHAPES {
        let (mut heavy, mut accepted, mut refused) = (0, 0, 0);
        for seed in 0..300 {
            let base = of_shape(&mut Random::new(seed), shape);
            match checker::check(&encode::pack_bytes(&base.pack), &encode::certificate_bytes(&base.components)) {
                checker::HEAVY => heavy += 1,
                0 => accepted += 1,
                checker::RULE_RISES | checker::PAIR_STAYS => refused += 1,
                number => panic!("{shape:?} {seed}: {number}"),
            }
        }
        assert!(heavy > 110 && accepted + refused > 110, "{shape:?}: {heavy} heavy of 300");
        assert!(accepted > 90 && refused > 10, "{shape:?}: {accepted} accepted, {refused} refused with 12 or 13");
    }
}

/// Where the number is aimed at, many of the bases that are not heavy have a form that is the limit itself.
#[test]
fn forms_reach_the_limit_itself() {
    for shape in [Shape::Root, Shape::MarkedRoot, Shape::Inner, Shape::Spread, Shape::UnderZero] {
        let bases = (0..100).map(|seed| of_shape(&mut Random::new(seed), shape));
        let exact = bases.filter(|base| greatest(base) == Some(checker::FORM_LIMIT)).count();
        assert!(exact > 15, "{shape:?}: {exact}");
    }
}

/// The greatest part of all forms; none if one passes the limit.
fn greatest(base: &Base) -> Option<u64> {
    let mut greatest = 0;
    let mut note = |form: Result<checker::Form, u32>| {
        let form = form.ok()?;
        greatest = form.coefficients.values().fold(greatest.max(form.constant), |one, other| one.max(*other));
        Some(())
    };
    for component in &base.components {
        for weighting in &component.weightings {
            for rule in &base.pack.rules {
                for node in [&rule.left, &rule.right].into_iter().flat_map(checker::subterms) {
                    note(checker::form(node, &weighting.plain))?;
                }
            }
            for pair in &component.pairs {
                note(checker::marked_form(checker::pair_left(&base.pack, *pair), weighting))?;
                note(checker::marked_form(checker::pair_right(&base.pack, *pair), weighting))?;
            }
        }
    }
    Some(greatest)
}

#[test]
fn groups_are_ordered() {
    for seed in 0..200 {
        let mut random = Random::new(seed);
        let pack = guided(&mut random, Size::Small).pack;
        let graph = graph(&pack);
        let groups = graph.groups(&mut random);
        assert!(is_ordered(&graph, &groups));
        let again = graph.by_class(groups.clone(), |group| group.len() > 1);
        assert!(is_ordered(&graph, &again) && again.len() == groups.len());
    }
}

/// The benchmark's slowest files are accepted, else they would end early.
#[test]
fn slow_files_are_accepted() {
    let arcs = [slow::arcs(2), slow::arcs(6), slow::arcs(30), slow::clashing()];
    let weights = [slow::chains(437, true), slow::wide(384), slow::brink(335)];
    for base in arcs.into_iter().chain(weights).chain((1..=8).map(slow::weightings)) {
        assert_eq!(tuned::check(&encode::pack_bytes(&base.pack), &encode::certificate_bytes(&base.components)), 0);
    }
}

/// The deepest files get the numbers they are made for.
#[test]
fn deep_files_get_their_numbers() {
    for slow::Deep { name, base, number } in slow::deep() {
        let files = (encode::pack_bytes(&base.pack), encode::certificate_bytes(&base.components));
        assert_eq!((checker::check(&files.0, &files.1), tuned::check(&files.0, &files.1)), (number, number), "{name}");
    }
}

/// A short comparison; the program `compare` does many more.
#[test]
fn checker_and_tuned_agree() {
    for seed in 0..2_000 {
        let case = case(seed);
        assert_eq!(
            checker::check(&case.pack, &case.certificate),
            tuned::check(&case.pack, &case.certificate),
            "seed {seed}"
        );
    }
}
