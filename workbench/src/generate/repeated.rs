//! Packs whose left sides have variables twice or more, so that arcs hang on what such a variable meets.
//!
//! A call is made from the left side it may lead to: each occurrence of a variable becomes a term. The terms of one
//! variable agree, two of them clash, or they would clash if nothing loose stood over the place; loose is what may become
//! everything, a variable or a defined symbol. Most calls' first arguments fall, so that weights suit where arcs run.

use super::packs::{certify, Base};
use crate::checker::{arc_runs, pair_right, root, subterms, variables, Component, Pack, Rule, Term, Weighting};
use crate::checker::{ARITY_LIMIT, NODE_LIMIT, RULE_LIMIT, VARIABLE_LIMIT};
use crate::random::Random;

/// Symbols: two constants, 1 + x, then constructors that no weighting counts, one that holds calls, a defined one over
/// all that shall be hidden; then the calls.
const ONE: u16 = 0;
const OTHER: u16 = 1;
const SHELL: u16 = 2;
const LINK: u16 = 3;
const TWIN: u16 = 4;
const BUNCH: u16 = 5;
const HOLDER: u16 = 6;
const HIDE: u16 = 7;
const FIRST_CALL: u16 = 8;

/// Arities of the symbols before the calls.
const ARITIES: [u16; 8] = [0, 0, 1, 1, 2, ARITY_LIMIT, 2, 1];
/// What left sides are nested in.
const NESTS: [u16; 3] = [LINK, TWIN, BUNCH];
/// Nodes of a side at the limit.
const NODES: usize = NODE_LIMIT as usize;
/// All variables that a rule can have.
const VARIABLES: usize = VARIABLE_LIMIT as usize + 1;
/// The longest way to a clash, mostly; and the longest that is tried.
const DEPTH: usize = 3;
const GREAT_DEPTH: usize = 13;

/// How the terms stand to each other that one variable meets.
#[derive(Clone, Copy, Debug, PartialEq)]
pub enum Meeting {
    /// All have one symbol wherever none is loose.
    Agree,
    /// All are loose.
    Loose,
    /// Two clash, mostly the last ones; the others agree with both.
    Clash,
    /// Two would, if one of them had not something loose over the place.
    Hidden,
}

/// How often each comes.
const MEETINGS: [Meeting; 7] =
    [Meeting::Agree, Meeting::Loose, Meeting::Clash, Meeting::Clash, Meeting::Clash, Meeting::Hidden, Meeting::Hidden];

/// A node on the way from a term's root to the place of a clash.
#[derive(Clone, Copy)]
enum Step {
    Link,
    First,
    Second,
}

/// A pack of calls and its certificate.
pub fn repeated(random: &mut Random) -> Base {
    let rules = match random.below(100) {
        0..=54 => 1,
        55..=89 => random.range(2, 4),
        90..=98 => random.range(5, 12),
        _ => random.range(13, RULE_LIMIT - 1),
    };
    // Each call has a rule, so that it is defined.
    let calls = rules.min(*random.pick(&[1, 1, 1, 2, 3]));
    of_meetings(random, rules, calls, &MEETINGS)
}

/// The same with so many rules and calls, and only these meetings.
pub fn of_meetings(random: &mut Random, rules: usize, calls: usize, meetings: &[Meeting]) -> Base {
    let mut arities = ARITIES.to_vec();
    arities.extend((0..calls).map(|_| *random.pick(&[2, 3, 3, 4, 4, 5, ARITY_LIMIT])));
    let nodes = *random.pick(&[8, 12, 16, NODES]);
    let lefts: Vec<Term> = (0..rules).map(|number| left_side(random, &arities, number % calls, nodes)).collect();
    let mut rules: Vec<Rule> = lefts.iter().map(|left| rule(random, left, &lefts, meetings)).collect();
    rules.push(hiding_rule());
    random.shuffle(&mut rules);
    let pack = Pack { arities, rules };
    let components = certified(random, &pack);
    Base { pack, components }
}

/// hide(x) -> x
fn hiding_rule() -> Rule {
    Rule { left: Term::Apply(HIDE, vec![Term::Variable(0)]), right: Term::Variable(0) }
}

/// The shells of a call's first argument are counted and nothing else.
fn certified(random: &mut Random, pack: &Pack) -> Vec<Component> {
    let plain = [((SHELL, 0), 1), ((SHELL, 1), 1), ((HIDE, 1), 1)].into();
    let marked = (FIRST_CALL..pack.arities.len() as u16).map(|call| ((call, 1), 1)).collect();
    let mut components = certify(random, pack, &Weighting { plain, marked });
    for component in &mut components {
        if random.chance(60) && needs_no_weights(pack, component) {
            component.weightings.clear();
        }
    }
    // No arc leads on from a hiding symbol: behind all others its pairs make no arc a back arc.
    if random.chance(70) {
        components.sort_by_key(|component| only_hides(pack, component));
    }
    components
}

fn only_hides(pack: &Pack, component: &Component) -> bool {
    component.pairs.iter().all(|pair| root(pair_right(pack, *pair)) == Some(HIDE))
}

fn needs_no_weights(pack: &Pack, component: &Component) -> bool {
    matches!(component.pairs[..], [pair] if !arc_runs(pack, pair, pair))
}

fn constant(symbol: u16) -> Term {
    Term::Apply(symbol, Vec::new())
}

fn size(term: &Term) -> usize {
    subterms(term).len()
}

// ---------------------------------------------------------------- left sides

/// A call of a shell and of nested variables, few of them different; at most so many nodes if its arity allows it.
fn left_side(random: &mut Random, arities: &[u16], call: usize, nodes: usize) -> Term {
    let symbol = FIRST_CALL + call as u16;
    let arity = usize::from(arities[usize::from(symbol)]);
    let shape = Shape { names: some_names(random), full: random.chance(30) };
    let mut arguments = vec![Term::Apply(SHELL, vec![Term::Variable(shape.names[0])])];
    // The root and the first argument have three of them.
    arguments.extend(shape.terms(random, nodes.saturating_sub(3), arity - 1));
    Term::Apply(symbol, arguments)
}

/// What a left side is made of.
struct Shape {
    names: Vec<u16>,
    /// It shall have all nodes that it may have.
    full: bool,
}

impl Shape {
    /// So many terms, at least one node for each, at most so many for all.
    fn terms(&self, random: &mut Random, nodes: usize, count: usize) -> Vec<Term> {
        let mut shares = vec![1; count];
        for _ in count..if self.full { nodes } else { random.range(count, nodes) } {
            shares[random.below(count)] += 1;
        }
        shares.into_iter().map(|share| self.nested(random, share)).collect()
    }

    /// Variables under constructors, and a constant now and then.
    fn nested(&self, random: &mut Random, nodes: usize) -> Term {
        let arity = |symbol: u16| usize::from(ARITIES[usize::from(symbol)]);
        let fitting: Vec<u16> = NESTS.into_iter().filter(|symbol| arity(*symbol) < nodes).collect();
        if fitting.is_empty() || !self.full && random.chance(20) {
            return if random.chance(8) { constant(ONE) } else { Term::Variable(*random.pick(&self.names)) };
        }
        let symbol = *random.pick(&fitting);
        Term::Apply(symbol, self.terms(random, nodes - 1, arity(symbol)))
    }
}

/// Mostly one to three variables.
fn some_names(random: &mut Random) -> Vec<u16> {
    let mut all: Vec<u16> = (0..=VARIABLE_LIMIT).collect();
    if random.chance(50) {
        random.shuffle(&mut all);
    }
    all.truncate(*random.pick(&[1, 1, 2, 2, 3, 5, VARIABLES]));
    all
}

// ---------------------------------------------------------------- right sides

/// A call or several that may lead to the left sides, mostly to the rule's own.
fn rule(random: &mut Random, left: &Term, lefts: &[Term], meetings: &[Meeting]) -> Rule {
    let names = variables(left);
    let mut right = fitting_call(random, left, lefts, &names, NODES, meetings);
    for _ in 0..*random.pick(&[0, 0, 0, 1, 2]) {
        // The holder takes a node.
        let room = NODES - 1 - size(&right).min(NODES - 1);
        let other = if random.chance(70) {
            fitting_call(random, left, lefts, &names, room, meetings)
        } else {
            loose(random, &names)
        };
        if size(&other) <= room {
            right = Term::Apply(HOLDER, vec![right, other]);
        }
    }
    Rule { left: left.clone(), right }
}

/// A call of at most so many nodes, with ever shorter terms; a variable if none fits.
fn fitting_call(
    random: &mut Random,
    left: &Term,
    lefts: &[Term],
    names: &[u16],
    room: usize,
    meetings: &[Meeting],
) -> Term {
    let target = if random.chance(70) { left } else { random.pick(lefts) };
    let deepest = if random.chance(15) { random.range(DEPTH + 1, GREAT_DEPTH) } else { DEPTH };
    for depth in [deepest, DEPTH, 1, 0, 0, 0] {
        let call = Writer { random, names, depth, meetings }.call(target);
        if size(&call) <= room {
            return call;
        }
    }
    Term::Variable(names[0])
}

/// Writes one call.
struct Writer<'a> {
    random: &'a mut Random,
    /// The variables of the rule.
    names: &'a [u16],
    /// The longest way to a clash.
    depth: usize,
    meetings: &'a [Meeting],
}

impl Writer<'_> {
    /// The target with a term for each of its variables; the first argument falls or stays.
    fn call(&mut self, target: &Term) -> Term {
        let Term::Apply(symbol, arguments) = target else {
            return target.clone();
        };
        let own = Term::Variable(self.names[0]);
        let first = match self.random.below(20) {
            0..=14 => own,
            15..=17 => Term::Apply(HIDE, vec![own]),
            _ => Term::Apply(SHELL, vec![own]),
        };
        let mut met = self.met(&arguments[1..]);
        let mut all = vec![first];
        all.extend(arguments[1..].iter().map(|argument| self.filled(argument, &mut met)));
        Term::Apply(*symbol, all)
    }

    /// For each variable the terms that it meets, the last one first.
    fn met(&mut self, arguments: &[Term]) -> Vec<Vec<Term>> {
        let occurrences: Vec<u16> = arguments.iter().flat_map(variables).collect();
        let count = |variable: u16| occurrences.iter().filter(|other| **other == variable).count();
        (0..=VARIABLE_LIMIT).map(|variable| self.terms(count(variable))).collect()
    }

    /// The argument with the next term for each variable; now and then something loose over some of them.
    fn filled(&mut self, argument: &Term, met: &mut [Vec<Term>]) -> Term {
        match argument {
            Term::Variable(number) => met[usize::from(*number)].pop().unwrap_or(constant(ONE)),
            Term::Apply(..) if self.random.chance(4) => self.loose(),
            Term::Apply(symbol, arguments) => {
                Term::Apply(*symbol, arguments.iter().map(|argument| self.filled(argument, met)).collect())
            }
        }
    }

    /// What one variable meets that stands so many times.
    fn terms(&mut self, count: usize) -> Vec<Term> {
        let meeting = *self.random.pick(self.meetings);
        let path = self.path(count);
        let clashing = self.clashing(count);
        (0..count).map(|index| self.term(meeting, &path, clashing.iter().position(|one| *one == index))).collect()
    }

    /// The way to a clash of so many terms; a great one is as long as it may be and has nothing beside it.
    fn path(&mut self, count: usize) -> Vec<Step> {
        if self.depth > DEPTH {
            return vec![Step::Link; if count > 1 { self.depth } else { 0 }];
        }
        let length = self.random.range(0, self.depth);
        (0..length).map(|_| *self.random.pick(&[Step::Link, Step::First, Step::Second])).collect()
    }

    /// Two of so many; mostly those that are met last, which are the first here.
    fn clashing(&mut self, count: usize) -> Vec<usize> {
        let mut all: Vec<usize> = (0..count).collect();
        if self.random.chance(40) {
            self.random.shuffle(&mut all);
        }
        all.truncate(2);
        all
    }

    /// One of them; the two that clash know which they are.
    fn term(&mut self, meeting: Meeting, path: &[Step], clashing: Option<usize>) -> Term {
        match (meeting, clashing) {
            (Meeting::Loose, _) => self.loose(),
            (Meeting::Agree, _) if self.random.chance(50) => self.grown(path, constant(ONE)),
            (Meeting::Agree, _) | (_, None) => self.cut(path),
            (_, Some(0)) => self.grown(path, constant(ONE)),
            (Meeting::Hidden, Some(_)) => self.hidden(path),
            (Meeting::Clash, Some(_)) => self.grown(path, constant(OTHER)),
        }
    }

    /// Something loose at the end of the path or before it.
    fn cut(&mut self, path: &[Step]) -> Term {
        let at = self.random.range(0, path.len());
        let end = self.loose();
        self.grown(&path[..at], end)
    }

    /// The other constant at the path's end, and a defined symbol over it.
    fn hidden(&mut self, path: &[Step]) -> Term {
        let at = self.random.range(0, path.len());
        let inside = self.grown(&path[at..], constant(OTHER));
        self.grown(&path[..at], Term::Apply(HIDE, vec![inside]))
    }

    /// The path with that at its end; what stands beside it agrees with all.
    fn grown(&mut self, path: &[Step], end: Term) -> Term {
        path.iter().rev().fold(end, |inside, step| match step {
            Step::Link => Term::Apply(LINK, vec![inside]),
            Step::First => Term::Apply(TWIN, vec![inside, self.beside()]),
            Step::Second => Term::Apply(TWIN, vec![self.beside(), inside]),
        })
    }

    fn beside(&mut self) -> Term {
        if self.random.chance(50) {
            constant(ONE)
        } else {
            self.loose()
        }
    }

    /// A single node where all shall be short.
    fn loose(&mut self) -> Term {
        if self.depth == 0 {
            Term::Variable(*self.random.pick(self.names))
        } else {
            loose(self.random, self.names)
        }
    }
}

/// A variable, mostly; or a defined symbol over anything.
fn loose(random: &mut Random, names: &[u16]) -> Term {
    let variable = Term::Variable(*random.pick(names));
    match random.below(10) {
        0 => Term::Apply(HIDE, vec![variable]),
        1 => Term::Apply(HIDE, vec![constant(ONE)]),
        2 => Term::Apply(HIDE, vec![constant(OTHER)]),
        _ => variable,
    }
}
