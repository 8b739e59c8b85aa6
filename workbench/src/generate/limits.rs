//! Bases whose forms come right up to the limit of 4,294,967,295, or pass it by a little.
//!
//! Each has one weight that settles it, the tip. With the value it is made for, all forms are within the limit, mostly
//! with one part that is the limit itself; with one more they are not. All else is good: pairs stand once and in an
//! allowed order, so that 11 and what comes after it are reached.

use super::packs::Base;
use super::weightings::name_zeros;
use crate::checker::{arc_runs, form, root, subterms, variables};
use crate::checker::{Component, Form, Pack, Pair, Rule, Term, Weighting};
use crate::checker::{ARITY_LIMIT, FORM_LIMIT, NODE_LIMIT, SYMBOL_LIMIT, VARIABLE_LIMIT};
use crate::graph::graph;
use crate::random::Random;

/// The greatest value a weight's record holds.
const GREATEST: u16 = u16::MAX;
/// The furthest a tip is set from the value it is made for.
const SPAN: u16 = 8;
const VARIABLES: u16 = VARIABLE_LIMIT + 1;

/// Where the limit is met.
#[derive(Clone, Copy, Debug, PartialEq)]
pub enum Shape {
    /// At the root of a rule's side, added up over its arguments.
    Root,
    /// At a pair's marked root only.
    MarkedRoot,
    /// At a node below, whose parents multiply by 1.
    Inner,
    /// In one of many variables' great coefficients: their sum passes the limit, no single one does.
    Spread,
    /// Under a weight 0, or several, so that no side's own form shows it.
    UnderZero,
    /// At the end of factors whose product passes the limit: a form that is 0 stays 0, any other does not.
    OverNothing,
    /// In a chain of unary symbols, up to all nodes of a side.
    Chain,
}

pub const SHAPES: [Shape; 7] =
    [Shape::Root, Shape::MarkedRoot, Shape::Inner, Shape::Spread, Shape::UnderZero, Shape::OverNothing, Shape::Chain];

/// A base of any shape.
pub fn near_limit(random: &mut Random) -> Base {
    let shape = *random.pick(&SHAPES);
    of_shape(random, shape)
}

/// A base of that shape; drafts with too many nodes are thrown away.
pub fn of_shape(random: &mut Random, shape: Shape) -> Base {
    loop {
        let draft = Draft::new(random, shape);
        if draft.fits() {
            return draft.base(random);
        }
    }
}

// ---------------------------------------------------------------- drafts

/// What of a form comes to the limit.
#[derive(Clone, Copy, PartialEq)]
enum Part {
    Constant,
    Coefficient(u16),
}

impl Part {
    fn some(random: &mut Random) -> Part {
        if random.chance(45) {
            Part::Constant
        } else {
            Part::Coefficient(some_variable(random))
        }
    }

    fn of(self, form: &Form) -> u64 {
        match self {
            Part::Constant => form.constant,
            Part::Coefficient(variable) => form.coefficients.get(&variable).copied().unwrap_or(0),
        }
    }
}

/// Which sides of the rule, and so of its pairs, hold the terms near the limit.
#[derive(Clone, Copy, PartialEq)]
enum Sides {
    Left,
    Right,
    Both,
}

impl Sides {
    fn some(random: &mut Random) -> Sides {
        *random.pick(&[Sides::Left, Sides::Left, Sides::Left, Sides::Both, Sides::Both, Sides::Right])
    }
}

/// The weight that settles a base, and the value up to which all forms are within the limit.
#[derive(Clone, Copy, Default)]
struct Tip {
    marked: bool,
    key: (u16, u16),
    exact: u16,
}

/// A term and the weight it stands under.
type Weighed = (u16, Term);

/// An argument of the call, on both sides, and its weights.
struct Slot {
    plain: u16,
    marked: u16,
    left: Term,
    right: Term,
}

/// A pack in the making. Most symbols stand in one place only, so that each number can be reached by their weights.
#[derive(Default)]
struct Draft {
    arities: Vec<u16>,
    weights: Weighting,
    rules: Vec<Rule>,
    tip: Tip,
}

/// A constant without a weight.
const NOTHING: u16 = 0;
/// A constant that weighs 1.
const ONE: u16 = 1;
/// 1 + its argument.
const SHELL: u16 = 2;

fn nothing() -> Term {
    Term::Apply(NOTHING, Vec::new())
}

fn some_variable(random: &mut Random) -> u16 {
    random.below(usize::from(VARIABLES)) as u16
}

fn other_variable(random: &mut Random, variable: u16) -> u16 {
    (variable + random.range(1, usize::from(VARIABLE_LIMIT)) as u16) % VARIABLES
}

impl Draft {
    fn new(random: &mut Random, shape: Shape) -> Draft {
        let mut draft = Draft::default();
        draft.symbol(0, &[]);
        draft.symbol(1, &[]);
        draft.symbol(1, &[1]);
        let (part, sides) = (Part::some(random), Sides::some(random));
        match shape {
            Shape::Root => {
                let parts = draft.addends(random, part);
                draft.at_root(random, parts, part, sides);
            }
            Shape::MarkedRoot => {
                let parts = draft.addends(random, part);
                draft.at_marked_root(random, parts, part, sides);
            }
            Shape::Inner => {
                let parts = draft.addends(random, part);
                draft.inside(random, parts, part, sides);
            }
            Shape::Spread => draft.spread(random, sides),
            Shape::UnderZero => draft.under_zero(random, part, sides),
            Shape::OverNothing => draft.over_nothing(random, sides),
            Shape::Chain => draft.in_chain(random, part, sides),
        }
        draft.other_rules(random);
        draft
    }

    fn fits(&self) -> bool {
        let fits = |side: &Term| subterms(side).len() <= usize::from(NODE_LIMIT);
        self.arities.len() <= SYMBOL_LIMIT && self.rules.iter().all(|rule| fits(&rule.left) && fits(&rule.right))
    }

    // ------------------------------------------------------------ symbols and terms

    /// A new symbol, its arity the number of weights.
    fn symbol(&mut self, constant: u16, weights: &[u16]) -> u16 {
        let symbol = self.arities.len() as u16;
        self.arities.push(weights.len() as u16);
        for (place, value) in std::iter::once(&constant).chain(weights).enumerate() {
            if *value > 0 {
                self.weights.plain.insert((symbol, place as u16), *value);
            }
        }
        symbol
    }

    /// A new symbol over these parts in any order, and sometimes over more arguments that count nothing.
    fn over(&mut self, random: &mut Random, constant: u16, mut parts: Vec<Weighed>) -> Term {
        let room = usize::from(ARITY_LIMIT) - parts.len();
        for _ in 0..*random.pick(&[0, 0, 0, 0, 1.min(room), room]) {
            parts.push((some_factor(random), nothing()));
        }
        random.shuffle(&mut parts);
        let (weights, arguments): (Vec<u16>, Vec<Term>) = parts.into_iter().unzip();
        Term::Apply(self.symbol(constant, &weights), arguments)
    }

    /// A term whose part is this value, with the weight it stands under.
    fn light(&mut self, random: &mut Random, value: u16, part: Part) -> Weighed {
        let by_weight = random.chance(50);
        match part {
            Part::Constant if by_weight => (value, Term::Apply(ONE, Vec::new())),
            Part::Constant => (1, Term::Apply(self.symbol(value, &[]), Vec::new())),
            Part::Coefficient(variable) if by_weight => (value, Term::Variable(variable)),
            Part::Coefficient(variable) => (1, Term::Apply(self.symbol(0, &[value]), vec![Term::Variable(variable)])),
        }
    }

    /// A term whose part is exactly this value, and all else of its form 0: a great factor over what it divides by, and
    /// the rest beside.
    fn weighing(&mut self, random: &mut Random, value: u64, part: Part) -> Term {
        if let Ok(value) = u16::try_from(value) {
            let light = self.light(random, value, part);
            return if light.0 == 1 { light.1 } else { self.over(random, 0, vec![light]) };
        }
        let factor = *random.pick(&[GREATEST, GREATEST, GREATEST - 1, 60_000, 1 << 15, 1 << 12]);
        let inner = self.weighing(random, value / u64::from(factor), part);
        let rest = (value % u64::from(factor)) as u16;
        if part == Part::Constant && random.chance(50) {
            return self.over(random, rest, vec![(factor, inner)]);
        }
        let rest = self.light(random, rest, part);
        self.over(random, 0, vec![(factor, inner), rest])
    }

    fn value(&self, term: &Term, part: Part) -> u64 {
        part.of(&form(term, &self.weights.plain).expect("terms are made within the limit"))
    }

    // ------------------------------------------------------------ sums that are the limit

    /// One to three terms of one part, none of them near the limit.
    fn addends(&mut self, random: &mut Random, part: Part) -> Vec<Weighed> {
        let count = random.range(1, 3);
        let share = FORM_LIMIT / (count as u64 + 1);
        let mut parts = Vec::new();
        for _ in 0..count {
            let weight = *random.pick(&[1, 1, 2, 1_000, GREATEST]);
            parts.push((weight, self.weighing(random, share / u64::from(weight), part)));
        }
        parts
    }

    /// Adds what the parts lack to the limit, the tip last; answers it instead if it shall be the root's own constant.
    fn complete(&mut self, random: &mut Random, parts: &mut Vec<Weighed>, part: Part, already: u64) -> Option<u16> {
        let sum: u64 = parts.iter().map(|(weight, term)| u64::from(*weight) * self.value(term, part)).sum();
        let lacking = FORM_LIMIT - already - sum;
        let exact = random.range(usize::from(SPAN), usize::from(GREATEST - SPAN)) as u16;
        if lacking > u64::from(exact) {
            let rest = self.weighing(random, lacking - u64::from(exact), part);
            parts.push((1, rest));
        }
        let exact = exact.min(lacking.min(u64::from(GREATEST)) as u16);
        if part == Part::Constant && random.chance(50) {
            return Some(exact);
        }
        let tip = self.tip_term(exact, part);
        parts.push((1, tip));
        None
    }

    /// A symbol whose constant or only weight is the tip.
    fn tip_term(&mut self, exact: u16, part: Part) -> Term {
        let (term, place) = match part {
            Part::Constant => (Term::Apply(self.symbol(exact, &[]), Vec::new()), 0),
            Part::Coefficient(variable) => (Term::Apply(self.symbol(0, &[exact]), vec![Term::Variable(variable)]), 1),
        };
        self.tip = Tip { marked: false, key: (self.arities.len() as u16 - 1, place), exact };
        term
    }

    /// A constructor's term whose part is the limit.
    fn brimful(&mut self, random: &mut Random, mut parts: Vec<Weighed>, part: Part) -> Term {
        let own = self.complete(random, &mut parts, part, 0);
        let term = self.over(random, own.unwrap_or(0), parts);
        if let (Some(exact), Some(symbol)) = (own, root(&term)) {
            self.tip = Tip { marked: false, key: (symbol, 0), exact };
        }
        term
    }
}

// ---------------------------------------------------------------- places

impl Draft {
    /// The call's own plain weights reach the limit.
    fn at_root(&mut self, random: &mut Random, mut parts: Vec<Weighed>, part: Part, sides: Sides) {
        let own = self.complete(random, &mut parts, part, 0);
        // The falling argument would raise a marked constant, but no coefficient.
        let marked_too = part != Part::Constant && random.chance(25);
        let mut slots: Vec<Slot> = Vec::new();
        for (weight, term) in parts {
            slots.push(self.slot(random, weight, if marked_too { weight } else { 0 }, term, sides));
        }
        slots.push(falling(random, part, 1));
        let call = self.call_rule(random, slots);
        self.set_own(call, own, false);
    }

    /// The call's marked weights reach the limit; under the plain ones its form is small or at least smaller.
    fn at_marked_root(&mut self, random: &mut Random, mut parts: Vec<Weighed>, part: Part, sides: Sides) {
        let falls_by = u64::from(part == Part::Constant && sides != Sides::Right);
        let own = self.complete(random, &mut parts, part, falls_by);
        let counted = random.below(2 * parts.len());
        let mut slots: Vec<Slot> = Vec::new();
        for (index, (weight, term)) in parts.into_iter().enumerate() {
            slots.push(self.slot(random, u16::from(index == counted), weight, term, sides));
        }
        slots.push(falling(random, part, 1));
        let call = self.call_rule(random, slots);
        self.set_own(call, own, true);
    }

    /// The tip is the call's own constant, if there is one.
    fn set_own(&mut self, call: u16, own: Option<u16>, marked: bool) {
        if let Some(exact) = own {
            self.tip = Tip { marked, key: (call, 0), exact };
        }
    }

    /// A constructor below the call reaches the limit, and all above it multiply by 1.
    fn inside(&mut self, random: &mut Random, parts: Vec<Weighed>, part: Part, sides: Sides) {
        let mut term = self.brimful(random, parts, part);
        for _ in 0..random.below(4) {
            term = self.over(random, 0, vec![(1, term)]);
        }
        let (plain, marked) = (*random.pick(&[0, 1, 1]), random.below(2) as u16);
        let slot = self.slot(random, plain, marked, term, sides);
        // A constant at the limit leaves no room for one that falls beside it.
        let falls_by = u16::from(part != Part::Constant || marked == 0);
        self.call_of_two(random, slot, part, falls_by);
    }

    /// Up to all variables, each with a great coefficient; one reaches the limit.
    fn spread(&mut self, random: &mut Random, sides: Sides) {
        let (parts, part) = self.bundles(random);
        match random.below(3) {
            0 => self.at_root(random, parts, part, sides),
            1 => self.at_marked_root(random, parts, part, sides),
            _ => self.inside(random, parts, part, sides),
        }
    }

    /// One or two symbols over many variables, and a variable of them.
    fn bundles(&mut self, random: &mut Random) -> (Vec<Weighed>, Part) {
        let mut names: Vec<u16> = (0..VARIABLES).collect();
        random.shuffle(&mut names);
        names.truncate(*random.pick(&[2, 3, 8, 9, 16, 16]));
        let part = Part::Coefficient(*random.pick(&names));
        let mut parts = Vec::new();
        for names in names.chunks(usize::from(ARITY_LIMIT)) {
            let weights: Vec<u16> = names.iter().map(|_| *random.pick(&[GREATEST, GREATEST - 1, 40_000, 1])).collect();
            let bundle = self.symbol(0, &weights);
            let arguments = names.iter().map(|name| Term::Variable(*name)).collect();
            parts.push((*random.pick(&[GREATEST, GREATEST - 1, 50_000]), Term::Apply(bundle, arguments)));
        }
        (parts, part)
    }

    /// A term at the limit under one weight 0 or more: in constructors, or in the call itself.
    fn under_zero(&mut self, random: &mut Random, part: Part, sides: Sides) {
        let (parts, part) = if random.chance(30) { self.bundles(random) } else { (self.addends(random, part), part) };
        let mut term = self.brimful(random, parts, part);
        let in_call = random.chance(30);
        for _ in 0..random.below(3) {
            let weight = random.below(2) as u16;
            term = self.over(random, 0, vec![(weight, term)]);
        }
        if !in_call {
            term = self.over(random, 0, vec![(0, term)]);
        }
        // Over a form that is 0 any factor will do.
        let (plain, marked) = if in_call { (0, 0) } else { (some_factor(random), some_factor(random)) };
        let slot = self.slot(random, plain, marked, term, sides);
        self.call_of_two(random, slot, part, 1);
    }

    /// Factors whose product passes the limit, some of them powers of two, so that a product cut to 32 or 64 bits is 0.
    fn over_nothing(&mut self, random: &mut Random, sides: Sides) {
        let (mut term, part) = self.muted(random);
        // Three of the least factor pass the limit.
        let factors = [GREATEST, GREATEST, GREATEST - 1, 1 << 15, 1 << 12];
        let symbols: Vec<(u16, Vec<Term>, usize)> =
            (0..random.range(1, 3)).map(|_| self.path_symbol(random, &factors)).collect();
        for _ in 0..*random.pick(&[3, 3, 4, 5, 6, 8, 24, 29]) {
            let (symbol, mut arguments, at) = random.pick(&symbols).clone();
            arguments[at] = term;
            term = Term::Apply(symbol, arguments);
        }
        let (plain, marked) = (some_factor(random), some_factor(random));
        let slot = self.slot(random, plain, marked, term, sides);
        self.call_of_two(random, slot, part, 1);
    }

    /// A form that is 0 as long as the tip is: a constant, or a symbol over a variable or over a term at the limit.
    fn muted(&mut self, random: &mut Random) -> (Term, Part) {
        let part = Part::some(random);
        if part == Part::Constant && random.chance(70) {
            return (self.tip_term(0, part), part);
        }
        let inner = match part {
            Part::Coefficient(variable) if random.chance(70) => Term::Variable(variable),
            _ => self.weighing(random, FORM_LIMIT, part),
        };
        let symbol = self.symbol(0, &[0]);
        self.tip = Tip { marked: false, key: (symbol, 1), exact: 0 };
        (Term::Apply(symbol, vec![inner]), part)
    }

    /// A symbol with one great factor; its other arguments are nothing, under any weight.
    fn path_symbol(&mut self, random: &mut Random, factors: &[u16]) -> (u16, Vec<Term>, usize) {
        let arity = *random.pick(&[1, 1, 1, 2, 3, usize::from(ARITY_LIMIT)]);
        let at = random.below(arity);
        let mut weights: Vec<u16> = (0..arity).map(|_| some_factor(random)).collect();
        weights[at] = *random.pick(factors);
        (self.symbol(0, &weights), vec![nothing(); arity], at)
    }

    fn in_chain(&mut self, random: &mut Random, part: Part, sides: Sides) {
        if random.chance(35) {
            self.doubling(random, sides);
        } else {
            self.power(random, part, sides);
        }
    }

    /// So many symbols of one weight that its power is within the limit, and that of one more is not.
    fn power(&mut self, random: &mut Random, part: Part, sides: Sides) {
        let length = random.range(3, usize::from(NODE_LIMIT) - 3);
        let exact = root_of_limit(length as u32);
        let symbol = self.symbol(0, &[exact]);
        self.tip = Tip { marked: false, key: (symbol, 1), exact };
        let leaf = match part {
            Part::Constant => Term::Apply(ONE, Vec::new()),
            Part::Coefficient(variable) => Term::Variable(variable),
        };
        let (plain, marked) = (random.below(2) as u16, random.below(2) as u16);
        let slot = self.slot(random, plain, marked, chain(symbol, length, leaf), sides);
        self.call_of_two(random, slot, part, 1);
    }

    /// 1 + 2 × the argument, so many times that the constant is the limit itself: at most with all nodes of a side.
    fn doubling(&mut self, random: &mut Random, sides: Sides) {
        let length = random.range(16, usize::from(NODE_LIMIT) - 1);
        // The limit is 32 ones in binary; each symbol adds one of them behind those of the leaf.
        let leaf = Term::Apply(self.symbol((FORM_LIMIT >> length) as u16, &[]), Vec::new());
        let doubler = self.symbol(1, &[2]);
        let term = chain(doubler, length - 1, leaf);
        let by_mark = random.chance(50);
        let (plain, marked) = if by_mark { (random.below(2) as u16, 2) } else { (2, random.below(2) as u16) };
        let slot = self.slot(random, plain, marked, term, sides);
        let call = self.call_rule(random, vec![slot]);
        self.set_own(call, Some(1), by_mark);
    }
}

/// A weight over what counts nothing.
fn some_factor(random: &mut Random) -> u16 {
    *random.pick(&[0, 0, 1, 2, GREATEST])
}

/// The greatest number whose power is within the limit.
fn root_of_limit(power: u32) -> u16 {
    let within = |number: &u16| u64::from(*number).checked_pow(power).is_some_and(|value| value <= FORM_LIMIT);
    (2..=GREATEST).take_while(within).last().unwrap_or(1)
}

fn chain(symbol: u16, length: usize, inside: Term) -> Term {
    (0..length).fold(inside, |term, _| Term::Apply(symbol, vec![term]))
}

// ---------------------------------------------------------------- rules

/// An argument that is 1 greater on the left, counted so often by the marked call.
fn falling(random: &mut Random, part: Part, marked: u16) -> Slot {
    let marked = if random.chance(92) { marked } else { 0 };
    if random.chance(40) {
        return Slot { plain: 0, marked, left: Term::Apply(ONE, Vec::new()), right: nothing() };
    }
    // Another variable than the one at the limit.
    let variable = match part {
        Part::Constant => some_variable(random),
        Part::Coefficient(variable) => other_variable(random, variable),
    };
    let variable = Term::Variable(variable);
    Slot { plain: 0, marked, left: Term::Apply(SHELL, vec![variable.clone()]), right: variable }
}

impl Draft {
    /// The term on the sides told, and on the other one a term that counts nothing.
    fn slot(&mut self, random: &mut Random, plain: u16, marked: u16, term: Term, sides: Sides) -> Slot {
        let (left, right) = match sides {
            Sides::Left => (term, nothing()),
            Sides::Both => (term.clone(), term),
            Sides::Right => (self.carrier(random, &term), term),
        };
        Slot { plain, marked, left, right }
    }

    /// The variables of a term of the right, so that they stand on the left; the term itself if they are too many.
    fn carrier(&mut self, random: &mut Random, term: &Term) -> Term {
        let mut names = variables(term);
        names.sort_unstable();
        names.dedup();
        match names.len() {
            0 => nothing(),
            1 if random.chance(50) => Term::Variable(names[0]),
            count if count > usize::from(ARITY_LIMIT) => term.clone(),
            count => {
                let symbol = self.symbol(0, &vec![0; count]);
                Term::Apply(symbol, names.into_iter().map(Term::Variable).collect())
            }
        }
    }

    /// A rule whose call has this argument and one that falls.
    fn call_of_two(&mut self, random: &mut Random, slot: Slot, part: Part, falls_by: u16) {
        let falling = falling(random, part, falls_by);
        self.call_rule(random, vec![slot, falling]);
    }

    /// A rule from a call with these arguments to one or more such calls; answers the call's symbol.
    fn call_rule(&mut self, random: &mut Random, mut slots: Vec<Slot>) -> u16 {
        let room = usize::from(ARITY_LIMIT) - slots.len();
        for _ in 0..*random.pick(&[0, 0, 0, 1.min(room), 2.min(room), room]) {
            let (plain, marked) = (some_factor(random), some_factor(random));
            slots.push(Slot { plain, marked, left: nothing(), right: nothing() });
        }
        random.shuffle(&mut slots);
        let plain: Vec<u16> = slots.iter().map(|slot| slot.plain).collect();
        let call = self.symbol(0, &plain);
        for (slot, place) in slots.iter().zip(1..) {
            if slot.marked > 0 {
                self.weights.marked.insert((call, place), slot.marked);
            }
        }
        let (left, right): (Vec<Term>, Vec<Term>) = slots.into_iter().map(|slot| (slot.left, slot.right)).unzip();
        let right = self.calls(random, Term::Apply(call, right), call);
        self.rules.push(Rule { left: Term::Apply(call, left), right });
        call
    }

    /// The call alone, or beside others that hold nothing or the same, so that several pairs stand together.
    fn calls(&mut self, random: &mut Random, full: Term, call: u16) -> Term {
        let others = *random.pick(&[0, 0, 0, 1, 2, 3]);
        if others == 0 && random.chance(70) {
            return full;
        }
        let empty = Term::Apply(call, vec![nothing(); usize::from(self.arities[usize::from(call)])]);
        let mut parts = vec![(random.below(2) as u16, full.clone())];
        for _ in 0..others {
            parts.push((0, if random.chance(75) { empty.clone() } else { full.clone() }));
        }
        self.over(random, 0, parts)
    }

    /// Perhaps the same rule again, and some that have nothing near the limit: more pairs, more components, more 12.
    fn other_rules(&mut self, random: &mut Random) {
        if random.chance(20) {
            self.rules.extend(self.rules.clone());
        }
        if random.chance(40) {
            let call = self.symbol(0, &[0]);
            self.weights.marked.insert((call, 1), 1);
            let variable = Term::Variable(some_variable(random));
            let left = Term::Apply(call, vec![Term::Apply(SHELL, vec![variable.clone()])]);
            self.rules.push(Rule { left, right: Term::Apply(call, vec![variable]) });
        }
        if random.chance(12) {
            // It rises if its left weighs nothing.
            let left = Term::Apply(self.symbol(random.below(2) as u16, &[]), Vec::new());
            self.rules.push(Rule { left, right: Term::Apply(ONE, Vec::new()) });
        }
        random.shuffle(&mut self.rules);
    }
}

// ---------------------------------------------------------------- certificates

impl Draft {
    fn base(self, random: &mut Random) -> Base {
        let pack = Pack { arities: self.arities, rules: self.rules };
        // All joined, some or none.
        let blocks = blocks(random, &pack, &[0, 50, 100]);
        let steps = steps(random, blocks.len());
        let mut components = Vec::new();
        for (pairs, step) in blocks.into_iter().zip(steps) {
            // Between components with the same weights one without may stand.
            if step <= 0 && needs_no_weights(&pack, &pairs) && random.chance(15) {
                components.push(Component { pairs, ..Component::default() });
                continue;
            }
            let mut weighting = self.weights.clone();
            set_tip(&mut weighting, self.tip, step);
            name_zeros(random, &pack, &mut weighting);
            components.push(Component { pairs, weightings: vec![weighting] });
        }
        Base { pack, components }
    }
}

fn needs_no_weights(pack: &Pack, pairs: &[Pair]) -> bool {
    pairs.len() == 1 && !arc_runs(pack, pairs[0], pairs[0])
}

/// The tip so far from the value it is made for.
fn set_tip(weighting: &mut Weighting, tip: Tip, step: i32) {
    let weights = if tip.marked { &mut weighting.marked } else { &mut weighting.plain };
    let value = (i32::from(tip.exact) + step).clamp(0, i32::from(GREATEST));
    weights.insert(tip.key, value as u16);
}

/// The groups of the arc graph in order, one of these percents of them joined to the one before.
pub fn blocks(random: &mut Random, pack: &Pack, percents: &[usize]) -> Vec<Vec<Pair>> {
    let graph = graph(pack);
    let join = *random.pick(percents);
    let mut blocks: Vec<Vec<Pair>> = Vec::new();
    for group in graph.groups(random) {
        let group = group.into_iter().map(|index| graph.pairs[index]);
        match blocks.last_mut() {
            Some(last) if random.chance(join) => last.extend(group),
            _ => blocks.push(group.collect()),
        }
    }
    blocks.iter_mut().for_each(|block| block.sort_unstable());
    blocks
}

/// How far each component's tip is from the value it is made for: all within, all the same and over, or one over.
fn steps(random: &mut Random, count: usize) -> Vec<i32> {
    let within = |random: &mut Random| *random.pick(&[0, 0, 0, -1, -2, -i32::from(SPAN)]);
    let over = *random.pick(&[1, 1, 1, 2, 3, i32::from(SPAN)]);
    let first = within(random);
    let alike = random.chance(50);
    let mut steps: Vec<i32> = (0..count).map(|_| if alike { first } else { within(random) }).collect();
    match random.below(10) {
        0..=4 => {}
        5 | 6 => steps.fill(over),
        _ if count > 0 => steps[random.late(count)] = over,
        _ => {}
    }
    steps
}
