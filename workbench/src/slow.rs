//! The slowest files known, for the benchmark: many arc questions, many meetings of one variable, many weights; and the
//! deepest ones.

use crate::checker::{pairs, Component, Pack, Pair, Rule, Term, Weighting, Weights};
use crate::checker::{ARITY_LIMIT, HEAVY, NODE_LIMIT, PAIR_STAYS, RULE_LIMIT, RULE_RISES, SELF_ARC, WEIGHTING_LIMIT};
use crate::generate::packs::Base;

fn apply(symbol: u16, arguments: Vec<Term>) -> Term {
    Term::Apply(symbol, arguments)
}

fn chain(symbol: u16, length: usize, inside: Term) -> Term {
    (0..length).fold(inside, |term, _| apply(symbol, vec![term]))
}

fn unweighted(pair: Pair) -> Component {
    Component { pairs: vec![pair], ..Component::default() }
}

// ---------------------------------------------------------------- arcs

/// Every pair's right walks `depth` nodes down every left of its root before it fails; no arc at all.
/// Symbols: 0 a, 1 b, 2 s, 3 f, 4 a constructor that holds the calls.
pub fn arcs(depth: usize) -> Base {
    arcs_of(depth, (31 / (depth + 1)).clamp(1, 8))
}

/// The same with short walks and so many pairs a rule.
pub fn few_arcs(calls: usize) -> Base {
    arcs_of(2, calls.clamp(1, 8))
}

fn arcs_of(depth: usize, calls: usize) -> Base {
    let left = apply(3, vec![chain(2, depth - 1, apply(1, vec![]))]);
    let call = apply(3, vec![chain(2, depth - 1, apply(0, vec![]))]);
    let right = apply(4, vec![call; calls]);
    let rules = vec![Rule { left, right }; 64];
    let pack = Pack { arities: vec![0, 0, 1, 1, calls as u16], rules };
    // The first pairs of all rules come first, so that each later one asks for all rules.
    let places = (0..calls).map(|call| (1 + call * (depth + 1)) as u16);
    let components = places.flat_map(|place| (0..64).map(move |rule| unweighted((rule, place)))).collect();
    Base { pack, components }
}

// ---------------------------------------------------------------- meetings

/// Symbols of the packs below; a bunch has as many arguments as can be.
const A: u16 = 0;
const B: u16 = 1;
const BUNCH: u16 = 2;
const F: u16 = 3;
const H: u16 = 4;
/// Bunches of such a side, and arguments of f beside them: with the root and f's other argument that is all its nodes.
const BUNCHES: usize = 3;
const BESIDE: usize = 3;
/// The place of f's other argument on such a side.
const OTHER: u16 = 1 + BUNCHES as u16 * (ARITY_LIMIT + 1);

/// The slowest arc question known, in a pack of so many rules: a variable meets a term as often as it can, and no two of
/// these differ, so that nothing ends it early. Every rule is the same, and an arc runs from every pair to every pair.
pub fn agreeing(rules: usize) -> Base {
    let (x, a) = (Term::Variable(0), apply(A, vec![]));
    let left = bunched(&x, x.clone(), [&x, &x, &x]);
    let right = bunched(&a, a.clone(), [&a, &a, &a]);
    Base { pack: bunched_pack(vec![Rule { left, right }; rules]), components: Vec::new() }
}

/// The slowest check known for arcs that document 01 has and a unifier denies: x meets the same constant 25 times, and only
/// the last two terms, which y meets, differ; so no arc at all, after 301 comparisons of two terms for each.
pub fn clashing() -> Base {
    let [x, y, z] = [0, 1, 2].map(Term::Variable);
    let (a, b) = (apply(A, vec![]), apply(B, vec![]));
    let left = bunched(&x, z, [&x, &y, &y]);
    let right = bunched(&a, apply(H, vec![]), [&a, &a, &b]);
    let count = RULE_LIMIT - 1;
    let mut rules = vec![Rule { left, right }; count];
    rules.push(Rule { left: apply(H, vec![]), right: a });
    // The calls of h come first, so that each call of f asks for all rules.
    let components =
        [OTHER, 0].into_iter().flat_map(|place| (0..count as u16).map(move |rule| unweighted((rule, place))));
    Base { pack: bunched_pack(rules), components: components.collect() }
}

fn bunched_pack(rules: Vec<Rule>) -> Pack {
    Pack { arities: vec![0, 0, ARITY_LIMIT, (BUNCHES + 1 + BESIDE) as u16, 0], rules }
}

/// f over bunches of a term, its other argument, and those beside them.
fn bunched(term: &Term, other: Term, beside: [&Term; BESIDE]) -> Term {
    let mut arguments = vec![apply(BUNCH, vec![term.clone(); usize::from(ARITY_LIMIT)]); BUNCHES];
    arguments.push(other);
    arguments.extend(beside.map(Term::clone));
    apply(F, arguments)
}

// ---------------------------------------------------------------- weights

/// 64 rules with 32 nodes a side in long chains; pairs never meet a left, so components stand in any order.
/// Symbols: 0 s, 1 f, 2 d.
pub fn chains(components: usize, own_weights: bool) -> Base {
    let calls = components.div_ceil(64).clamp(1, 15);
    let left = apply(1, vec![chain(0, 30, Term::Variable(0))]);
    let shells = 31 - 2 * calls;
    let right = chain(0, shells, calls_over(calls, 2, Term::Variable(0)));
    let weights = |index: usize| {
        let constant = if own_weights { 1 + (index % 2) as u16 } else { 1 };
        component(&[(0, 0, constant), (0, 1, 1), (1, 1, 1), (2, 1, 1)])
    };
    weighted(vec![1, 1, 1], Rule { left, right }, components, weights)
}

/// Sixteen variables on the left: forms are as wide as can be.
/// Symbols: 0 c with two arguments, 1 f, 2 d.
pub fn wide(components: usize) -> Base {
    let calls = components.div_ceil(64).clamp(1, 12);
    let left = apply(1, vec![sum_of(16, 0)]);
    let right = calls_over(calls, 2, sum_of((33 - 2 * calls) / 2, 0));
    let weights = |index: usize| {
        let constant = 1 + (index % 2) as u16;
        component(&[(0, 0, constant), (0, 1, 1), (0, 2, 1), (1, 1, 1), (2, 1, 1)])
    };
    weighted(vec![2, 1, 1], Rule { left, right }, components, weights)
}

/// Coefficients of 4,294,836,225 side by side: each is within the limit, their sum is not.
/// Symbols: 0 c with two arguments, 1 f, 2 d, 3 s.
pub fn brink(components: usize) -> Base {
    let calls = components.div_ceil(64).clamp(1, 12);
    let left = apply(1, vec![sum_of(8, 2)]);
    let right = calls_over(calls, 2, sum_of((33 - 2 * calls) / 4, 2));
    let weights = |index: usize| {
        let constant = 1 + (index % 2) as u16;
        component(&[(0, 0, constant), (0, 1, 1), (0, 2, 1), (1, 1, 1), (2, 1, 1), (3, 1, 65_535)])
    };
    weighted(vec![2, 1, 1, 1], Rule { left, right }, components, weights)
}

/// f(d(f(d(..)))): under each call a constructor that no left has there.
fn calls_over(calls: usize, shell: u16, inside: Term) -> Term {
    (0..calls).fold(inside, |term, _| apply(1, vec![apply(shell, vec![term])]))
}

/// c(c(c(x0, x1), x2), ..) with so many variables, each under `deep` symbols s.
fn sum_of(variables: usize, deep: usize) -> Term {
    let leaf = |variable: usize| chain(3, deep, Term::Variable(variable as u16));
    (1..variables).fold(leaf(0), |sum, variable| apply(0, vec![sum, leaf(variable)]))
}

/// Plain weights as told, and the marked f its argument.
fn component(plain: &[(u16, u16, u16)]) -> Component {
    with_marks(plain, [((1, 1), 1)].into())
}

/// Plain weights as told, and these marked ones.
fn with_marks(plain: &[(u16, u16, u16)], marked: Weights) -> Component {
    let plain = plain.iter().map(|(symbol, place, value)| ((*symbol, *place), *value)).collect();
    Component { pairs: Vec::new(), weightings: vec![Weighting { plain, marked }] }
}

/// 64 times the rule, its pairs dealt out to that many components as evenly as may be.
fn weighted(arities: Vec<u16>, rule: Rule, count: usize, weights: impl Fn(usize) -> Component) -> Base {
    let pack = Pack { arities, rules: vec![rule; 64] };
    let pairs = pairs(&pack);
    let mut components: Vec<Component> = (0..count.min(pairs.len())).map(weights).collect();
    let shares = components.len();
    for (index, pair) in pairs.iter().enumerate() {
        components[index * shares / pairs.len()].pairs.push(*pair);
    }
    Base { pack, components }
}

// ---------------------------------------------------------------- weightings

/// The functions of the pack below, and so the most weightings under each of which a pair leaves.
const FUNCTIONS: usize = WEIGHTING_LIMIT as usize;

/// An ordinary pack: eight functions like plus, their pairs in one component with so many weightings, one to eight. No
/// two in a row have the same plain weights. Symbols: 0 zero, 1 s, then the functions.
pub fn weightings(count: usize) -> Base {
    let functions = 2..2 + FUNCTIONS as u16;
    let rules = functions.clone().flat_map(plus_rules).collect();
    let pack = Pack { arities: [vec![0, 1], vec![2; FUNCTIONS]].concat(), rules };
    let weighting = |number: usize| {
        let mut plain: Weights = [((1, 0), 1 + (number % 2) as u16), ((1, 1), 1)].into();
        plain.extend(functions.clone().flat_map(|function| [((function, 1), 1), ((function, 2), 1)]));
        // Each counts its share of the functions, whose pairs then leave.
        let own = functions.clone().filter(|function| usize::from(function - 2) * count / FUNCTIONS == number);
        Weighting { plain, marked: own.map(|function| ((function, 1), 1)).collect() }
    };
    let component = Component { pairs: pairs(&pack), weightings: (0..count).map(weighting).collect() };
    Base { pack, components: vec![component] }
}

/// f(zero, y) -> y and f(s(x), y) -> s(f(x, y))
fn plus_rules(function: u16) -> [Rule; 2] {
    let (x, y) = (Term::Variable(0), Term::Variable(1));
    let sum = apply(function, vec![x.clone(), y.clone()]);
    [
        Rule { left: apply(function, vec![apply(0, vec![]), y.clone()]), right: y.clone() },
        Rule { left: apply(function, vec![apply(1, vec![x]), y]), right: apply(1, vec![sum]) },
    ]
}

// ---------------------------------------------------------------- depth

/// Nodes of a side at the limit.
const NODES: usize = NODE_LIMIT as usize;
/// The greatest weight: three of them under each other pass the limit of forms.
const GREATEST: u16 = u16::MAX;

/// A file that takes much stack, and what the check says of it.
pub struct Deep {
    pub name: String,
    pub base: Base,
    pub number: u32,
}

/// The deepest files known: sides nested as deep as can be, under weights 0, great ones and others.
/// Symbols: 0 s that nests in its last argument, 1 f, 2 a constant, 3 t and 4 u with one argument.
pub fn deep() -> Vec<Deep> {
    let mut all = Vec::new();
    for width in [1, 2, 8] {
        for leaf in [Term::Variable(0), apply(2, vec![])] {
            all.extend(deep_in(width, &leaf));
        }
        all.extend(deep_over_nothing(width));
    }
    all.push(deep_calls());
    for depth in [1, 7, 14] {
        all.extend([(0, 0), (1, SELF_ARC)].map(|(last, number)| deep_meetings(depth, last, number)));
    }
    all
}

/// Both sides the same, with all nodes they may have.
fn deep_in(width: u16, leaf: &Term) -> Vec<Deep> {
    let side = apply(1, vec![nested(width, NODES - 1, leaf)]);
    let rule = Rule { left: side.clone(), right: side };
    let heavy_root = with_marks(&[(0, 0, GREATEST), (0, width, 1)], [((1, 1), GREATEST)].into());
    vec![
        deep_file("pair stays", width, leaf, &rule, component(&[]), PAIR_STAYS),
        deep_file("equal sides", width, leaf, &rule, component(&[(0, 0, 1), (0, width, 1), (1, 1, 1)]), PAIR_STAYS),
        deep_file("heavy pair", width, leaf, &rule, heavy_root, HEAVY),
        deep_file("heavy rule", width, leaf, &rule, component(&[(0, 0, GREATEST), (0, width, GREATEST)]), HEAVY),
    ]
}

/// Great weights over what weighs nothing: no form is heavy.
fn deep_over_nothing(width: u16) -> Vec<Deep> {
    let leaf = apply(2, vec![]);
    let shell = |symbol: u16, inside: u16| apply(symbol, vec![apply(inside, vec![nested(width, NODES - 2, &leaf)])]);
    let weights = component(&[(0, width, GREATEST), (3, 0, 1), (3, 1, 1), (1, 1, 1)]);
    let falling = Rule { left: shell(1, 3), right: apply(1, vec![nested(width, NODES - 1, &leaf)]) };
    let rising = Rule { left: falling.right.clone(), right: shell(3, 1) };
    vec![
        deep_file("accepted", width, &leaf, &falling, weights.clone(), 0),
        deep_file("rule rises", width, &leaf, &rising, weights, RULE_RISES),
    ]
}

/// As many pairs as can be, each under the one before, and none falls.
fn deep_calls() -> Deep {
    let left = apply(1, vec![chain(0, NODES - 2, Term::Variable(0))]);
    let right = chain(1, NODES - 1, Term::Variable(0));
    let base = weighted(vec![1, 1], Rule { left, right }, 1, |_| component(&[]));
    Deep { name: "deep calls".to_string(), base, number: PAIR_STAYS }
}

/// Two terms so deep meet one variable as deep below the root as can be; they have this constant and constant 1 at their
/// ends. Symbols: 0 and 1 constants, 2 s, 3 c with two arguments, 4 f.
fn deep_meetings(depth: usize, last: u16, number: u32) -> Deep {
    let end = |constant: u16| chain(2, depth, apply(constant, vec![]));
    // f, c and two constants beside the shells.
    let shells = NODES - 4 - 2 * depth;
    let side = |one: Term, other: Term| apply(4, vec![chain(2, shells, apply(3, vec![one, other]))]);
    let rule = Rule { left: side(Term::Variable(0), Term::Variable(0)), right: side(end(1), end(last)) };
    let base =
        Base { pack: Pack { arities: vec![0, 0, 1, 2, 1], rules: vec![rule] }, components: vec![unweighted((0, 0))] };
    Deep { name: format!("deep, meetings {depth} below a root, {number}"), base, number }
}

fn deep_file(aim: &str, width: u16, leaf: &Term, rule: &Rule, weights: Component, number: u32) -> Deep {
    let end = if matches!(leaf, Term::Variable(_)) { "variable" } else { "constant" };
    let pack = Pack { arities: vec![width, 1, 0, 1, 1], rules: vec![rule.clone()] };
    let components = vec![Component { pairs: pairs(&pack), ..weights }];
    let name = format!("deep, {aim}, {width} wide, over a {end}");
    Deep { name, base: Base { pack, components }, number }
}

/// So many nodes: symbols s, each in the last argument of the one before, and u where no more s fits.
fn nested(width: u16, nodes: usize, leaf: &Term) -> Term {
    let width = usize::from(width);
    let inside = chain(4, (nodes - 1) % width, leaf.clone());
    (0..(nodes - 1) / width).fold(inside, |term, _| {
        let mut arguments = vec![leaf.clone(); width - 1];
        arguments.push(term);
        apply(0, arguments)
    })
}
