//! A little search for certificates: groups of the arc graph in order, small weights by local search.
//!
//! One weighting for a group is tried first; where none is found, several under which its pairs leave one after the other.
//! Finding weights is no part of the loader; this only serves the examples.

use crate::checker::{pair_left, pair_right, root, subterms};
use crate::checker::{Component, Pack, Pair, Term, Weighting, Weights, WEIGHTING_LIMIT};
use crate::generate::packs::falls_under;
use crate::graph::graph;
use crate::random::Random;

/// How hard the search tries for one group.
#[derive(Clone, Copy)]
pub struct Effort {
    pub restarts: usize,
    pub steps: usize,
    pub greatest: u16,
}

/// A certificate, or the pairs of the first group without weights.
pub fn certificate(pack: &Pack, effort: Effort) -> Result<Vec<Component>, Vec<Pair>> {
    let mut random = Random::new(1);
    let graph = graph(pack);
    let mut found: Vec<Component> = Vec::new();
    for group in graph.groups(&mut random) {
        let pairs: Vec<Pair> = group.iter().map(|index| graph.pairs[*index]).collect();
        if group.len() == 1 && !graph.has_self_arc(group[0]) {
            found.push(Component { pairs, ..Component::default() });
            continue;
        }
        let known: Vec<Weights> =
            found.iter().flat_map(|component| &component.weightings).map(|weighting| weighting.plain.clone()).collect();
        let one = one_weighting(&mut random, pack, &pairs, &known, effort).map(|weighting| vec![weighting]);
        let weightings = one.or_else(|| several_weightings(&mut random, pack, &pairs, known, effort));
        match weightings {
            Some(weightings) => found.push(Component { pairs, weightings }),
            None => return Err(pairs),
        }
    }
    Ok(found)
}

/// So many restarts where the plain weights are known and only the marked ones are looked for.
const KNOWN_RESTARTS: usize = 5;

/// All pairs fall: tries the plain weights known, then starts afresh.
fn one_weighting(
    random: &mut Random,
    pack: &Pack,
    pairs: &[Pair],
    known: &[Weights],
    effort: Effort,
) -> Option<Weighting> {
    for plain in known {
        let mut problem = Problem::new(pack, pairs);
        problem.keep_plain(plain);
        if problem.solve(random, KNOWN_RESTARTS, effort.steps, effort.greatest) {
            return Some(problem.tidy());
        }
    }
    let mut problem = Problem::new(pack, pairs);
    problem.solve(random, effort.restarts, effort.steps, effort.greatest).then(|| problem.tidy())
}

/// Weightings under which some pairs fall and leave, until none is left.
fn several_weightings(
    random: &mut Random,
    pack: &Pack,
    pairs: &[Pair],
    mut known: Vec<Weights>,
    effort: Effort,
) -> Option<Vec<Weighting>> {
    let mut present = pairs.to_vec();
    let mut weightings = Vec::new();
    while !present.is_empty() && weightings.len() < usize::from(WEIGHTING_LIMIT) {
        let weighting = next_weighting(random, pack, &present, &known, effort)?;
        present.retain(|pair| !falls_under(pack, *pair, &weighting));
        known.push(weighting.plain.clone());
        weightings.push(weighting);
    }
    present.is_empty().then_some(weightings)
}

/// No pair rises and one of them falls, each tried in turn: with the plain weights known, then afresh.
fn next_weighting(
    random: &mut Random,
    pack: &Pack,
    present: &[Pair],
    known: &[Weights],
    effort: Effort,
) -> Option<Weighting> {
    for plain in known {
        for falling in present {
            let mut problem = Problem::with_one_falling(pack, present, *falling);
            problem.keep_plain(plain);
            if problem.solve(random, KNOWN_RESTARTS, effort.steps, effort.greatest) {
                return Some(problem.keep_falling().tidy());
            }
        }
    }
    for falling in present {
        let mut problem = Problem::with_one_falling(pack, present, *falling);
        if problem.solve(random, effort.restarts, effort.steps, effort.greatest) {
            return Some(problem.keep_falling().tidy());
        }
    }
    None
}

/// One weight to choose.
#[derive(Clone, Copy, PartialEq)]
struct Key {
    marked: bool,
    symbol: u16,
    place: u16,
}

/// left is to be at least right, or greater; with marked roots if it is a pair.
struct Demand<'a> {
    left: &'a Term,
    right: &'a Term,
    marked: bool,
    strict: bool,
    keys: Vec<Key>,
}

struct Problem<'a> {
    demands: Vec<Demand<'a>>,
    keys: Vec<Key>,
    weights: Weighting,
}

impl<'a> Problem<'a> {
    /// All pairs are to fall.
    fn new(pack: &'a Pack, pairs: &[Pair]) -> Problem<'a> {
        let rule = |rule: &'a crate::checker::Rule| Demand {
            left: &rule.left,
            right: &rule.right,
            marked: false,
            strict: false,
            keys: vec![],
        };
        let pair = |pair: &Pair| Demand {
            left: pair_left(pack, *pair),
            right: pair_right(pack, *pair),
            marked: true,
            strict: true,
            keys: vec![],
        };
        let mut demands: Vec<Demand> = pack.rules.iter().map(rule).chain(pairs.iter().map(pair)).collect();
        let mut keys = Vec::new();
        for symbol in 0..pack.arities.len() as u16 {
            let is_root =
                |demand: &Demand| demand.marked && [demand.left, demand.right].iter().any(|t| root(t) == Some(symbol));
            let marked = demands.iter().any(is_root);
            for place in 0..=pack.arities[usize::from(symbol)] {
                keys.push(Key { marked: false, symbol, place });
                keys.extend(marked.then_some(Key { marked: true, symbol, place }));
            }
        }
        for demand in &mut demands {
            let touching = |key: &&Key| touches(demand.left, demand.right, demand.marked, **key);
            demand.keys = keys.iter().filter(touching).copied().collect();
        }
        Problem { demands, keys, weights: Weighting::default() }
    }

    /// This pair is to fall, and no other is to rise.
    fn with_one_falling(pack: &'a Pack, pairs: &[Pair], falling: Pair) -> Problem<'a> {
        let mut problem = Problem::new(pack, pairs);
        for (demand, pair) in problem.demands.iter_mut().skip(pack.rules.len()).zip(pairs) {
            demand.strict = *pair == falling;
        }
        problem
    }

    /// What falls now shall go on falling when the weights are lowered.
    fn keep_falling(mut self) -> Problem<'a> {
        let falls: Vec<bool> =
            self.demands.iter().map(|demand| demand.marked && self.miss_by(demand, 1) == 0).collect();
        for (demand, falls) in self.demands.iter_mut().zip(falls) {
            demand.strict = falls;
        }
        self
    }

    /// These plain weights stay; only the marked ones may still change.
    fn keep_plain(&mut self, plain: &Weights) {
        self.weights.plain = plain.clone();
        self.keys.retain(|key| key.marked);
        for demand in &mut self.demands {
            demand.keys.retain(|key| key.marked);
        }
    }

    /// Restarts, then steps that mend a broken demand by one weight.
    fn solve(&mut self, random: &mut Random, restarts: usize, steps: usize, greatest: u16) -> bool {
        for _ in 0..restarts {
            for key in self.keys.clone() {
                let value = *random.pick(&[0, 0, 1, 1, 1, 2]);
                self.set(key, value.min(greatest));
            }
            if (0..steps).any(|_| self.step(random, greatest)) {
                return true;
            }
        }
        false
    }

    /// True if nothing is left to mend.
    fn step(&mut self, random: &mut Random, greatest: u16) -> bool {
        let broken: Vec<usize> = (0..self.demands.len()).filter(|index| self.miss(&self.demands[*index]) > 0).collect();
        if broken.is_empty() {
            return true;
        }
        let demand = *random.pick(&broken);
        let keys = self.demands[demand].keys.clone();
        if keys.is_empty() {
            return false;
        }
        if random.chance(10) {
            self.set(*random.pick(&keys), random.below(usize::from(greatest) + 1) as u16);
            return false;
        }
        let mut best = (u64::MAX, keys[0], 0);
        for key in keys {
            let before = self.get(key);
            for value in (0..=greatest).filter(|value| *value != before) {
                self.set(key, value);
                let worth = (self.total_miss() << 4) + random.below(16) as u64;
                if worth < best.0 {
                    best = (worth, key, value);
                }
            }
            self.set(key, before);
        }
        self.set(best.1, best.2);
        false
    }

    fn weights_of(&mut self, key: Key) -> &mut Weights {
        if key.marked {
            &mut self.weights.marked
        } else {
            &mut self.weights.plain
        }
    }

    fn set(&mut self, key: Key, value: u16) {
        let place = (key.symbol, key.place);
        let weights = self.weights_of(key);
        if value == 0 {
            weights.remove(&place);
        } else {
            weights.insert(place, value);
        }
    }

    fn get(&mut self, key: Key) -> u16 {
        self.weights_of(key).get(&(key.symbol, key.place)).copied().unwrap_or(0)
    }

    fn total_miss(&self) -> u64 {
        self.demands.iter().map(|demand| self.miss(demand)).sum()
    }

    /// By how much a demand is broken; each part counts little, so that no single one rules.
    fn miss(&self, demand: &Demand) -> u64 {
        self.miss_by(demand, i64::from(demand.strict))
    }

    /// The same, where the left's constant is to be so much greater.
    fn miss_by(&self, demand: &Demand, fall: i64) -> u64 {
        let mut form = [0i64; 17];
        self.add(demand.left, 1, demand.marked, &mut form);
        self.add(demand.right, -1, demand.marked, &mut form);
        form[16] -= fall;
        form.iter().map(|value| if *value < 0 { 1 + value.unsigned_abs().min(8) } else { 0 }).sum()
    }

    /// Adds factor × the term's form.
    fn add(&self, term: &Term, factor: i64, marked: bool, form: &mut [i64; 17]) {
        match term {
            Term::Variable(number) => form[usize::from(*number)] += factor,
            Term::Apply(symbol, arguments) => {
                let weights = if marked { &self.weights.marked } else { &self.weights.plain };
                let weight = |place: u16| weights.get(&(*symbol, place)).map_or(0, |value| i64::from(*value));
                form[16] += factor * weight(0);
                for (argument, place) in arguments.iter().zip(1..) {
                    if weight(place) != 0 {
                        self.add(argument, factor * weight(place), false, form);
                    }
                }
            }
        }
    }

    /// Lowers every weight as far as all demands still hold.
    fn tidy(mut self) -> Weighting {
        for key in self.keys.clone() {
            let value = self.get(key);
            let least = (0..value).find(|lower| {
                self.set(key, *lower);
                self.total_miss() == 0
            });
            self.set(key, least.unwrap_or(value));
        }
        self.weights
    }
}

/// Can this weight change the demand?
fn touches(left: &Term, right: &Term, marked: bool, key: Key) -> bool {
    let at_root = |term: &Term| root(term) == Some(key.symbol);
    if key.marked {
        return marked && (at_root(left) || at_root(right));
    }
    let inside = |term: &Term| subterms(term).into_iter().skip(usize::from(marked)).any(at_root);
    inside(left) || inside(right)
}
