//! Packs whose pairs leave one after the other: the arguments of their calls fall in lexicographic order.
//!
//! Each rule falls at one level. The arguments of earlier levels stay as they are, that of its own level loses a
//! constructor, and those of later levels become anything: a copy of a tree, a great term, another call. So the weighting
//! of a level counts this level's argument alone, and mostly no single weighting would do.

use super::limits::blocks;
use super::packs::Base;
use super::weightings::{name_zeros, under_which_some_leave};
use crate::checker::{arc_runs, is_defined, subterms, variables, Component, Pack, Pair, Rule, Term, Weighting};
use crate::checker::{ARITY_LIMIT, NODE_LIMIT, VARIABLE_LIMIT, WEIGHTING_LIMIT};
use crate::random::Random;

/// Symbols: a constant, 1 + x, 1 + x + y, one that only some weightings count, one that none counts; then the calls.
const ZERO: u16 = 0;
const SHELL: u16 = 1;
const TREE: u16 = 2;
const GREAT: u16 = 3;
const BUNCH: u16 = 4;
const FIRST_CALL: u16 = 5;

/// Arities of the symbols before the calls.
const ARITIES: [u16; 5] = [0, 1, 2, 1, 3];

/// How many calls there are, and which argument each level looks at.
struct Plan {
    calls: u16,
    arity: usize,
    /// The argument of each level, counted from 0.
    levels: Vec<usize>,
}

/// A pack of calls with as many levels as weightings are wanted, and its certificate.
pub fn lexicographic(random: &mut Random) -> Base {
    let levels = *random.pick(&[2, 2, 2, 3, 3, 4, 4, 5, 5, 6, 6, 7, 7, 8, 8]);
    of_levels(random, levels)
}

/// A pack with 2 to 8 levels.
pub fn of_levels(random: &mut Random, levels: usize) -> Base {
    let plan = Plan::new(random, levels.clamp(2, usize::from(WEIGHTING_LIMIT)));
    let pack = plan.pack(random);
    let components = plan.components(random, &pack);
    Base { pack, components }
}

impl Plan {
    fn new(random: &mut Random, levels: usize) -> Plan {
        let arity = random.range(levels, usize::from(ARITY_LIMIT).min(levels + 1));
        let mut places: Vec<usize> = (0..arity).collect();
        random.shuffle(&mut places);
        places.truncate(levels);
        Plan { calls: *random.pick(&[1, 1, 1, 2, 3]), arity, levels: places }
    }

    // ------------------------------------------------------------ rules

    /// A rule or more for each level, in any order; perhaps one without a call.
    fn pack(&self, random: &mut Random) -> Pack {
        let mut arities = ARITIES.to_vec();
        arities.extend((0..self.calls).map(|_| self.arity as u16));
        let mut levels: Vec<usize> = (0..self.levels.len()).collect();
        for _ in 0..random.below(3) {
            levels.push(random.below(self.levels.len()));
        }
        let mut rules: Vec<Rule> = levels.into_iter().map(|level| self.fitting_rule(random, level)).collect();
        if random.chance(30) {
            let left = Term::Apply(self.call(random), vec![constant(ZERO); self.arity]);
            rules.push(Rule { left, right: constant(ZERO) });
        }
        random.shuffle(&mut rules);
        Pack { arities, rules }
    }

    fn call(&self, random: &mut Random) -> u16 {
        FIRST_CALL + random.below(usize::from(self.calls)) as u16
    }

    /// Rules with too many nodes are thrown away; without other calls and trees they fit.
    fn fitting_rule(&self, random: &mut Random, level: usize) -> Rule {
        for depth in [2, 1, 1, 0] {
            let rule = self.rule(random, level, depth);
            let fits = |side: &Term| subterms(side).len() <= usize::from(NODE_LIMIT);
            if fits(&rule.left) && fits(&rule.right) {
                return rule;
            }
        }
        let left = self.left_arguments(random, level);
        let right = self.same_but_smaller(&left, level);
        Rule { left: Term::Apply(FIRST_CALL, left), right: Term::Apply(FIRST_CALL, right) }
    }

    fn rule(&self, random: &mut Random, level: usize, depth: usize) -> Rule {
        let arguments = self.left_arguments(random, level);
        let call = self.smaller_call(random, &arguments, level, depth);
        let right = if random.chance(20) { self.bunch(random, &arguments, call) } else { call };
        Rule { left: Term::Apply(self.call(random), arguments), right }
    }

    /// The level's argument has something to lose; the others are what they are.
    fn left_arguments(&self, random: &mut Random, level: usize) -> Vec<Term> {
        let mut next = 0;
        let mut variable = || {
            next += 1;
            Term::Variable((next - 1) % (VARIABLE_LIMIT + 1))
        };
        let mut arguments = Vec::new();
        for place in 0..self.arity {
            let falls = place == self.levels[level];
            arguments.push(match random.below(10) {
                0..=1 => Term::Apply(TREE, vec![variable(), variable()]),
                2..=4 => Term::Apply(SHELL, vec![variable()]),
                _ if falls => Term::Apply(SHELL, vec![variable()]),
                5 => constant(ZERO),
                _ => variable(),
            });
        }
        arguments
    }

    /// A call that falls at this level under the left's arguments.
    fn smaller_call(&self, random: &mut Random, left: &[Term], level: usize, depth: usize) -> Term {
        let mut arguments = self.same_but_smaller(left, level);
        let known: Vec<u16> = left.iter().flat_map(variables).collect();
        // Arguments of no level, and those of later levels.
        let earlier = &self.levels[..=level];
        for place in (0..self.arity).filter(|place| !earlier.contains(place)) {
            if random.chance(60) {
                arguments[place] = self.anything(random, left, &known, depth);
            }
        }
        Term::Apply(self.call(random), arguments)
    }

    /// The left's arguments, that of the level without its constructor.
    fn same_but_smaller(&self, left: &[Term], level: usize) -> Vec<Term> {
        let mut arguments = left.to_vec();
        let place = self.levels[level];
        if let Term::Apply(_, inside) = &left[place] {
            arguments[place] = inside.last().cloned().unwrap_or_else(|| constant(ZERO));
        }
        arguments
    }

    /// Greater terms, great ones, and calls that fall at a level of their own.
    fn anything(&self, random: &mut Random, left: &[Term], known: &[u16], depth: usize) -> Term {
        // The argument that falls has a variable.
        let one = Term::Variable(*random.pick(known));
        match random.below(6) {
            0 => Term::Apply(SHELL, vec![Term::Apply(SHELL, vec![one])]),
            1 => Term::Apply(TREE, vec![one.clone(), one]),
            2 | 3 => Term::Apply(GREAT, vec![Term::Apply(GREAT, vec![one])]),
            4 if depth > 0 => {
                let level = *random.pick(&self.falling_levels(left));
                self.smaller_call(random, left, level, depth - 1)
            }
            _ => one,
        }
    }

    /// The levels whose arguments have something to lose, the rule's own among them.
    fn falling_levels(&self, left: &[Term]) -> Vec<usize> {
        let can_fall =
            |level: &usize| matches!(&left[self.levels[*level]], Term::Apply(_, inside) if !inside.is_empty());
        (0..self.levels.len()).filter(can_fall).collect()
    }

    /// Two or three calls side by side.
    fn bunch(&self, random: &mut Random, left: &[Term], call: Term) -> Term {
        let mut calls = vec![call];
        let levels = self.falling_levels(left);
        for _ in 0..random.range(1, 2) {
            let level = *random.pick(&levels);
            calls.push(self.smaller_call(random, left, level, 0));
        }
        calls.resize(usize::from(ARITIES[usize::from(BUNCH)]), constant(ZERO));
        Term::Apply(BUNCH, calls)
    }

    // ------------------------------------------------------------ certificates

    /// Groups in order, joined or not, each with the weightings of those levels at which one of its pairs leaves.
    fn components(&self, random: &mut Random, pack: &Pack) -> Vec<Component> {
        let blocks = blocks(random, pack, &[0, 80, 100, 100]);
        blocks.into_iter().map(|pairs| self.component(random, pack, pairs)).collect()
    }

    fn component(&self, random: &mut Random, pack: &Pack, pairs: Vec<Pair>) -> Component {
        if pairs.len() == 1 && !arc_runs(pack, pairs[0], pairs[0]) && random.chance(50) {
            return Component { pairs, ..Component::default() };
        }
        let weightings = under_which_some_leave(pack, &pairs, self.weightings(random, pack));
        Component { pairs, weightings }
    }

    /// One for each level; the plain weights are the same in all of them, or not.
    fn weightings(&self, random: &mut Random, pack: &Pack) -> Vec<Weighting> {
        let alike = random.chance(30);
        let mut all: Vec<Weighting> = Vec::new();
        for level in 0..self.levels.len() {
            let mut weighting = self.weighting(random, level);
            weighting.marked.retain(|(call, _), _| is_defined(pack, *call));
            match all.first() {
                Some(first) if alike => weighting.plain = first.plain.clone(),
                _ => name_zeros(random, pack, &mut weighting),
            }
            all.push(weighting);
        }
        all
    }

    /// Counts the level's argument, and perhaps those of earlier levels, where nothing present changes.
    fn weighting(&self, random: &mut Random, level: usize) -> Weighting {
        let constant = *random.pick(&[1, 1, 1, 2, 7]);
        let mut weighting = Weighting {
            plain: [((SHELL, 0), constant), ((SHELL, 1), 1), ((TREE, 0), 1), ((TREE, 1), 1), ((TREE, 2), 1)].into(),
            marked: [].into(),
        };
        // Two great symbols are within the limit; under a mark of 2 they are not, but by then such pairs have left.
        let great = *random.pick(&[0, 0, 1, u16::MAX, u16::MAX]);
        if great > 0 {
            weighting.plain.insert((GREAT, 1), great);
        }
        let factor = *random.pick(&[1, 1, 2, 3]);
        for call in FIRST_CALL..FIRST_CALL + self.calls {
            weighting.marked.insert((call, 1 + self.levels[level] as u16), factor);
        }
        if level > 0 && random.chance(25) {
            let place = 1 + self.levels[random.below(level)] as u16;
            for call in FIRST_CALL..FIRST_CALL + self.calls {
                weighting.marked.insert((call, place), 1);
            }
        }
        weighting
    }
}

fn constant(symbol: u16) -> Term {
    Term::Apply(symbol, Vec::new())
}
