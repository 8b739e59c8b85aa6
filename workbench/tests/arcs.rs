//! Arcs and their unifier: what is capped, what clashes, what only seems to, and that the generated cases meet all of it.

use workbench::checker::{self, check, connectable, judge_pack, pair_left, pair_right, pairs, unifiable, variables};
use workbench::checker::{Pack, Pair, Term, BACK_ARC, NODE_LIMIT, SELF_ARC, VARIABLE_LIMIT};
use workbench::generate::case;
use workbench::generate::repeated::{of_meetings, Meeting};
use workbench::random::Random;
use workbench::reach::{arc_by_reach, check_by_reach, has_repeated_variable};
use workbench::text::{assemble_pack, Mode};
use workbench::tuned;

// ---------------------------------------------------------------- the unifier

const A: u16 = 0;
const B: u16 = 1;
const G: u16 = 2;
const P: u16 = 3;

fn constant(symbol: u16) -> Term {
    Term::Apply(symbol, Vec::new())
}

fn g(inside: Term) -> Term {
    Term::Apply(G, vec![inside])
}

fn p(one: Term, other: Term) -> Term {
    Term::Apply(P, vec![one, other])
}

/// Is there a unifier for all these equations, from either side and in either order?
fn solvable(equations: &[(Term, Term)]) -> bool {
    let (these, others): (Vec<Term>, Vec<Term>) = equations.iter().cloned().unzip();
    let (back, behind): (Vec<Term>, Vec<Term>) = equations.iter().rev().cloned().unzip();
    let answer = unifiable(&these, &others);
    assert_eq!([unifiable(&others, &these), unifiable(&back, &behind)], [answer; 2], "{equations:?}");
    answer
}

/// The variables x, y and z, and the constants a and b.
fn leaves() -> ([Term; 3], [Term; 2]) {
    ([0, 1, 2].map(Term::Variable), [A, B].map(constant))
}

#[test]
fn terms_are_unified() {
    let ([x, y, z], [a, _]) = leaves();
    let unifiable = [
        vec![],
        vec![(a.clone(), a.clone())],
        vec![(x.clone(), x.clone())],
        vec![(x.clone(), y.clone()), (y.clone(), x.clone())],
        vec![(x.clone(), g(y.clone())), (y.clone(), g(z))],
        vec![(p(x.clone(), x.clone()), p(a.clone(), y.clone())), (y.clone(), a.clone())],
        vec![(p(x.clone(), g(x)), p(g(a), y))],
    ];
    for equations in unifiable {
        assert!(solvable(&equations), "{equations:?}");
    }
}

#[test]
fn terms_that_clash_have_no_unifier() {
    let ([x, y, _], [a, b]) = leaves();
    let clashing = [
        vec![(a.clone(), b.clone())],
        vec![(g(a.clone()), a.clone())],
        vec![(p(x.clone(), x.clone()), p(a.clone(), b.clone()))],
        vec![(x.clone(), y.clone()), (y.clone(), a.clone()), (x.clone(), b.clone())],
        vec![(x.clone(), g(y.clone())), (x, g(a)), (y, b)],
    ];
    for equations in clashing {
        assert!(!solvable(&equations), "{equations:?}");
    }
}

/// The occurs check: a variable within a term that it should equal.
#[test]
fn endless_terms_are_no_unifiers() {
    let ([x, y, z], _) = leaves();
    let endless = [
        vec![(x.clone(), g(x.clone()))],
        vec![(x.clone(), g(g(x.clone())))],
        vec![(x.clone(), g(y.clone())), (y.clone(), g(x.clone()))],
        vec![(p(x.clone(), x.clone()), p(y.clone(), g(y.clone())))],
        vec![(x.clone(), p(y, z.clone())), (z, g(x))],
    ];
    for equations in endless {
        assert!(!solvable(&equations), "{equations:?}");
    }
}

/// The variables of the equations below, and the deepest term that is put for one: deeper than two of them can ask for.
const VARIABLES: usize = 2;
const DEEPEST: usize = 5;

/// "exactly if no substitution makes the two equal": all substitutions are tried.
#[test]
fn the_unifier_is_a_search_for_a_substitution() {
    let mut random = Random::new(4);
    let chains = |end: u16| (0..=DEEPEST).map(move |depth| (0..depth).fold(constant(end), |term, _| g(term)));
    let values: Vec<Term> = chains(A).chain(chains(B)).collect();
    let mut found = [0; 2];
    for _ in 0..2_000 {
        let (one, other) = (small(&mut random), small(&mut random));
        let equal = |x: &Term, y: &Term| filled(&one, &[x, y]) == filled(&other, &[x, y]);
        let exists = values.iter().any(|x| values.iter().any(|y| equal(x, y)));
        assert_eq!(solvable(&[(one.clone(), other.clone())]), exists, "{one:?} {other:?}");
        found[usize::from(exists)] += 1;
    }
    assert!(found.iter().all(|count| *count > 300), "{found:?}");
}

/// Two short chains side by side.
fn small(random: &mut Random) -> Term {
    let mut short = || {
        let ends = [constant(A), constant(B), Term::Variable(0), Term::Variable(VARIABLES as u16 - 1)];
        let end = random.pick(&ends).clone();
        (0..random.below(3)).fold(end, |term, _| g(term))
    };
    p(short(), short())
}

fn filled(term: &Term, values: &[&Term; VARIABLES]) -> Term {
    match term {
        Term::Variable(number) => values[usize::from(*number)].clone(),
        Term::Apply(symbol, arguments) => {
            Term::Apply(*symbol, arguments.iter().map(|argument| filled(argument, values)).collect())
        }
    }
}

// ---------------------------------------------------------------- arcs by hand

/// Constructors a, b, g, p and bunch, a defined h; f has as many arguments as the rule gives it.
fn pack_of(rule: &str, arity: usize) -> Vec<u8> {
    let symbols = format!("symbols a/0 b/0 g/1 p/2 bunch/8 h/1 f/{arity}\nvariables x y z\n");
    assemble_pack(&format!("{symbols}{rule}\nh(x) -> x\n"), Mode::Strict).unwrap()
}

/// Both implementations say whether an arc runs from the rule's first pair to itself, and document 01's own arc too.
fn arcs_of(rule: &str, arity: usize) -> [bool; 2] {
    let file = pack_of(rule, arity);
    let pack = judge_pack(&file).unwrap();
    let (rule_number, place) = pairs(&pack)[0];
    let question = [rule_number, place, rule_number, place].map(u32::from);
    let [one, two, three, four] = question;
    let answer = checker::arc(&file, one, two, three, four).unwrap();
    assert_eq!(tuned::arc(&file, question), (0, u32::from(answer)), "{rule}");
    [reaches(&pack, (rule_number, place)), answer]
}

fn reaches(pack: &Pack, pair: Pair) -> bool {
    arc_by_reach(pack, pair_right(pack, pair), pair_left(pack, pair))
}

#[test]
fn a_variable_that_meets_what_clashes_denies_the_arc() {
    let rules = [
        ("f(x, x) -> f(a, b)", 2),
        ("f(x, x) -> f(a, g(x))", 2),
        // Deep down, and inside constructors of the left.
        ("f(x, x) -> f(g(g(g(a))), g(g(g(b))))", 2),
        ("f(p(x, g(x))) -> f(p(a, g(b)))", 1),
        ("f(bunch(x, x, x, x, x, x, x, x)) -> f(bunch(a, x, a, h(b), x, x, h(a), b))", 1),
        // Only between the second and the third, or the first and the third.
        ("f(x, x, x) -> f(g(x), g(a), g(b))", 3),
        ("f(x, x, x) -> f(x, a, b)", 3),
        ("f(x, x, x) -> f(g(a), g(x), g(b))", 3),
        ("f(x, x, x) -> f(p(x, a), p(b, x), p(a, x))", 3),
        ("f(x, x, x, x) -> f(g(x), g(g(x)), g(g(g(a))), g(g(g(b))))", 4),
        // What two terms have agreed upon clashes with a third.
        ("f(x, x, x) -> f(p(x, a), p(b, x), p(b, b))", 3),
        // The second of two variables.
        ("f(x, y, x, y) -> f(a, a, a, b)", 4),
        ("f(x, y, y, x) -> f(a, b, a, b)", 4),
    ];
    for (rule, arity) in rules {
        assert_eq!(arcs_of(rule, arity), [true, false], "{rule}");
    }
}

#[test]
fn a_near_miss_denies_nothing() {
    let rules = [
        // Met by variables, by what a defined symbol hides, by compatible terms.
        ("f(x, x) -> f(x, x)", 2),
        ("f(x, x) -> f(a, x)", 2),
        ("f(x, x) -> f(a, h(b))", 2),
        ("f(x, x) -> f(h(a), h(b))", 2),
        ("f(x, x) -> f(a, a)", 2),
        ("f(x, x) -> f(p(x, a), p(b, x))", 2),
        ("f(x, x, x) -> f(p(x, a), p(b, x), p(b, a))", 3),
        ("f(x, x) -> f(g(g(h(a))), g(g(b)))", 2),
        ("f(x, x) -> f(g(h(g(a))), g(g(b)))", 2),
        ("f(x, x, x) -> f(g(x), g(a), g(h(b)))", 3),
        ("f(x, y, x, y) -> f(a, b, a, b)", 4),
        // A call below the root is as loose as any other.
        ("f(x, x) -> f(f(a, a), b)", 2),
        // A variable of the right is two fresh ones where it stands twice.
        ("f(a, b, x, x) -> f(x, x, g(x), g(x))", 4),
        ("f(x, g(x)) -> f(x, x)", 2),
        ("f(x, x) -> f(x, g(x))", 2),
        // Something loose over one of the two.
        ("f(p(x, g(x))) -> f(p(a, x))", 1),
        ("f(g(x), x) -> f(h(a), b)", 2),
    ];
    for (rule, arity) in rules {
        assert_eq!(arcs_of(rule, arity), [true, true], "{rule}");
    }
}

#[test]
fn the_marked_root_is_never_replaced() {
    assert_eq!(arcs_of("f(a) -> f(b)", 1), [false, false]);
    assert_eq!(arcs_of("f(a) -> f(f(b))", 1), [true, true]);
    assert_eq!(arcs_of("f(g(x)) -> h(f(x))", 1), [false, false]);
}

/// 28 meetings of one variable, and 14 of each of two, with all nodes that a side can have.
#[test]
fn meetings_are_told_apart_at_the_limit_of_nodes() {
    for names in [["x", "x"], ["x", "y"]] {
        let all: Vec<&str> = (0..28).map(|at| names[at % 2]).collect();
        let left = wide(&all);
        for at in 0..all.len() {
            let mut terms = vec!["a"; all.len()];
            terms[at] = "b";
            let rule = format!("{left} -> {}", wide(&terms));
            assert_eq!(arcs_of(&rule, 7), [true, false], "{rule}");
            terms[at] = "x";
            assert_eq!(arcs_of(&format!("{left} -> {}", wide(&terms)), 7), [true, true], "{terms:?}");
        }
    }
}

/// f over three bunches of eight and four more.
fn wide(terms: &[&str]) -> String {
    let bunches: Vec<String> = terms[..24].chunks(8).map(|eight| format!("bunch({})", eight.join(", "))).collect();
    format!("f({}, {})", bunches.join(", "), terms[24..].join(", "))
}

/// Sixteen variables, one of which stands twice.
#[test]
fn each_of_sixteen_variables_is_told_apart() {
    let variables: Vec<String> = (0..=VARIABLE_LIMIT).map(|number| format!("#{number}")).collect();
    let bunches = |terms: &[String]| format!("bunch({}), bunch({})", terms[..8].join(", "), terms[8..].join(", "));
    for at in 0..variables.len() {
        let left = format!("f({}, {})", bunches(&variables), variables[at]);
        let mut terms = vec!["a".to_string(); variables.len()];
        terms[at] = "b".to_string();
        for (last, runs) in [("a", false), ("b", true), ("#0", true)] {
            let rule = format!("{left} -> f({}, {last})", bunches(&terms));
            assert_eq!(arcs_of(&rule, 3), [true, runs], "{rule}");
        }
    }
}

// ---------------------------------------------------------------- generated ones

/// The pair of a rule that leads to itself by document 01's own arcs, if the seed gives one.
fn single(seed: u64, meeting: Meeting) -> Option<(Pack, Pair)> {
    let pack = of_meetings(&mut Random::new(seed), 1, 1, &[meeting]).pack;
    let leads = |pair: &Pair| reaches(&pack, *pair);
    let pair = pairs(&pack).into_iter().find(leads)?;
    Some((pack, pair))
}

/// What agrees, is loose or is hidden denies nothing, and of what clashes much is denied.
#[test]
fn generated_meetings_are_what_they_are_made_for() {
    let denied = |meeting: Meeting| {
        let all = (0..300).filter_map(|seed| single(seed, meeting));
        all.filter(|(pack, pair)| !connectable(pack, pair_right(pack, *pair), pair_left(pack, *pair))).count()
    };
    for meeting in [Meeting::Agree, Meeting::Loose, Meeting::Hidden] {
        assert_eq!(denied(meeting), 0, "{meeting:?}");
    }
    let clashes = denied(Meeting::Clash);
    assert!(clashes > 100, "{clashes}");
}

/// Left sides with all nodes that they can have, and with most of the variables, are among those that deny an arc.
#[test]
fn generated_sides_reach_the_limits() {
    let denies = |(pack, pair): &(Pack, Pair)| !connectable(pack, pair_right(pack, *pair), pair_left(pack, *pair));
    let denying = (0..2_000).filter_map(|seed| single(seed, Meeting::Clash)).filter(denies);
    let lefts: Vec<Term> = denying.map(|(pack, pair)| pair_left(&pack, pair).clone()).collect();
    let full = lefts.iter().filter(|left| checker::subterms(left).len() == usize::from(NODE_LIMIT)).count();
    let different = |left: &Term| (0..=VARIABLE_LIMIT).filter(|one| variables(left).contains(one)).count();
    let most = lefts.iter().map(different).max();
    assert!(full > 20 && most > Some(10), "{full} full ones; {most:?} variables");
}

/// How often the cases meet what a unifier changes: so often at least in `CASES` of them.
const CASES: u64 = 4_000;

#[test]
fn generated_cases_hang_on_a_unifier() {
    let (mut repeated, mut back, mut itself, mut otherwise) = (0, 0, 0, 0);
    for seed in 1..=CASES {
        let case = case(seed);
        if !judge_pack(&case.pack).is_ok_and(|pack| has_repeated_variable(&pack)) {
            continue;
        }
        repeated += 1;
        let (answer, by_reach) = (check(&case.pack, &case.certificate), check_by_reach(&case.pack, &case.certificate));
        // "whatever passed before still passes"
        assert!(answer == 0 || by_reach != 0, "seed {seed}: {answer}");
        if answer != by_reach {
            assert!(by_reach == BACK_ARC || by_reach == SELF_ARC, "seed {seed}: {by_reach} and {answer}");
            back += u32::from(by_reach == BACK_ARC);
            itself += u32::from(by_reach == SELF_ARC);
            otherwise += u32::from(answer != 0);
        }
    }
    let counts = [repeated, back, itself, otherwise];
    assert!(repeated > 800 && back > 100 && itself > 50 && otherwise > 30, "{counts:?}");
}

/// Every arc is one of document 01's own, and where no left side has a variable twice these are the arcs.
#[test]
fn a_unifier_only_takes_arcs_away() {
    let mut fewer = 0;
    for seed in 1..=CASES / 4 {
        let Ok(pack) = judge_pack(&case(seed).pack) else {
            continue;
        };
        for from in pairs(&pack).into_iter().take(20) {
            for rule in &pack.rules {
                let right = pair_right(&pack, from);
                let arcs = [arc_by_reach, connectable].map(|runs| runs(&pack, right, &rule.left));
                assert!(arcs[0] || !arcs[1], "seed {seed}");
                assert!(arcs[0] == arcs[1] || has_repeated_variable(&pack), "seed {seed}");
                fewer += u32::from(arcs[0] != arcs[1]);
            }
        }
    }
    assert!(fewer > 100, "{fewer}");
}
