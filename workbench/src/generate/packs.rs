//! Packs made together with weights that suit them, and certificates found for them.

use super::weightings::under_which_some_leave;
use crate::checker::{at_least, form, greater, marked_form, pair_left, pair_right, variables, ARITY_LIMIT};
use crate::checker::{Component, Pack, Pair, Rule, Term, Weighting};
use crate::encode::certificate_bytes;
use crate::graph::{graph, Graph};
use crate::random::Random;

/// Records a certificate can have.
pub const RECORDS: usize = 3_072;

/// A pack and a certificate, mostly an accepted one.
#[derive(Clone)]
pub struct Base {
    pub pack: Pack,
    pub components: Vec<Component>,
}

#[derive(Clone, Copy, Debug, PartialEq)]
pub enum Size {
    Tiny,
    Small,
    Typical,
    Large,
    Limit,
}

/// The symbols of a pack to be, their levels and the weights its rules shall suit.
struct Plan {
    arities: Vec<u16>,
    constructors: Vec<u16>,
    defined: Vec<u16>,
    /// A rule may always call symbols of a lower level than its root's.
    levels: Vec<usize>,
    weights: Weighting,
    variables: usize,
}

/// A pack of that size whose rules suit the weights made with it, and its certificate.
pub fn guided(random: &mut Random, size: Size) -> Base {
    let (rules, symbols, nodes, variables) = extent(random, size);
    let plan = plan(random, symbols, rules, variables, size);
    let pack = plan.pack(random, rules, nodes, size == Size::Limit);
    let components = certify(random, &pack, &plan.weights);
    Base { pack, components }
}

/// So many with a pair at least, always the same.
pub fn seeded(count: usize, make: impl Fn(&mut Random) -> Base) -> impl Iterator<Item = Base> {
    let bases = (1..).map(move |seed| make(&mut Random::new(seed * 7_919)));
    bases.filter(|base| !base.components.is_empty()).take(count)
}

/// Rules, symbols, nodes a side, variables.
fn extent(random: &mut Random, size: Size) -> (usize, usize, usize, usize) {
    match size {
        Size::Tiny => (random.range(1, 3), random.range(3, 5), 8, 3),
        Size::Small => (random.range(2, 8), random.range(3, 10), 12, 4),
        Size::Typical => (random.range(5, 20), random.range(5, 20), 20, 6),
        Size::Large => (random.range(20, 64), random.range(10, 64), 32, 16),
        Size::Limit => (64, 64, 32, 16),
    }
}

// ---------------------------------------------------------------- plans

fn plan(random: &mut Random, symbols: usize, rules: usize, variables: usize, size: Size) -> Plan {
    let mut numbers: Vec<u16> = (0..symbols as u16).collect();
    random.shuffle(&mut numbers);
    // Two constructors at least: a constant and one with an argument.
    let defined_count = random.range(1, rules.min(symbols - 2));
    let defined = numbers[..defined_count].to_vec();
    let constructors = numbers[defined_count..].to_vec();
    let widest = if size == Size::Limit || random.chance(10) { usize::from(ARITY_LIMIT) } else { 3 };
    let mut arities: Vec<u16> = (0..symbols).map(|_| random.below(widest + 1) as u16).collect();
    for symbol in &defined {
        let arity = &mut arities[usize::from(*symbol)];
        if *arity == 0 && random.chance(85) {
            *arity = random.range(1, widest) as u16;
        }
    }
    arities[usize::from(constructors[0])] = 0;
    arities[usize::from(constructors[1])] = 1;
    let levels = (0..symbols).map(|_| random.below(defined_count / 2 + 2)).collect();
    let weights = Weighting::default();
    let mut plan = Plan { arities, constructors, defined, levels, weights, variables };
    plan.weigh_constructors(random);
    plan.weigh_defined(random, size);
    plan
}

impl Plan {
    fn arity(&self, symbol: u16) -> u16 {
        self.arities[usize::from(symbol)]
    }

    fn set_plain(&mut self, symbol: u16, place: u16, value: u16) {
        if value > 0 {
            self.weights.plain.insert((symbol, place), value);
        }
    }

    fn set_marked(&mut self, symbol: u16, place: u16, value: u16) {
        if value > 0 {
            self.weights.marked.insert((symbol, place), value);
        }
    }

    /// Mostly 1 + the sum of the arguments; the first constant is 0.
    fn weigh_constructors(&mut self, random: &mut Random) {
        for symbol in self.constructors.clone() {
            let arity = self.arity(symbol);
            let constant = if arity == 0 { *random.pick(&[0, 0, 0, 1, 2]) } else { *random.pick(&[0, 1, 1, 1, 2]) };
            self.set_plain(symbol, 0, constant);
            let some: &[u16] = if arity > 3 { &[0, 0, 0, 1] } else { &[0, 1, 1, 1, 1, 1, 1, 2] };
            for place in 1..=arity {
                self.set_plain(symbol, place, *random.pick(some));
            }
        }
        let (constant, unary) = (self.constructors[0], self.constructors[1]);
        self.weights.plain.remove(&(constant, 0));
        self.weights.plain.insert((unary, 0), 1);
        self.weights.plain.insert((unary, 1), 1);
    }

    /// Many stand for 0, some for one argument, some for a sum; the marked ones for one argument or a sum.
    fn weigh_defined(&mut self, random: &mut Random, size: Size) {
        let zero_share = *random.pick(&[100, 70, 40, 10]);
        for symbol in self.defined.clone() {
            let arity = self.arity(symbol);
            if !random.chance(zero_share) {
                self.weigh_one(random, symbol, false);
            }
            if arity == 0 || random.chance(20) {
                self.set_marked(symbol, 0, random.below(4) as u16);
            }
            if size == Size::Tiny || random.chance(95) {
                self.weigh_one(random, symbol, true);
            }
        }
    }

    /// One argument, or all of them.
    fn weigh_one(&mut self, random: &mut Random, symbol: u16, marked: bool) {
        let arity = self.arity(symbol);
        let set = if marked { Plan::set_marked } else { Plan::set_plain };
        if arity == 0 {
            return;
        }
        if random.chance(60) {
            let place = random.range(1, usize::from(arity)) as u16;
            return set(self, symbol, place, 1);
        }
        set(self, symbol, 0, random.below(3) as u16);
        for place in 1..=arity {
            set(self, symbol, place, *random.pick(&[0, 1, 1, 2]));
        }
    }

    // ------------------------------------------------------------ rules

    fn pack(&self, random: &mut Random, rules: usize, nodes: usize, full: bool) -> Pack {
        let mut pack = Pack { arities: self.arities.clone(), rules: Vec::new() };
        for number in 0..rules {
            // Each defined symbol gets a rule, so that it is defined.
            let root = match self.defined.get(number) {
                Some(symbol) => *symbol,
                None => *random.pick(&self.defined),
            };
            pack.rules.push(self.rule(random, root, nodes, full));
        }
        random.shuffle(&mut pack.rules);
        pack
    }

    fn rule(&self, random: &mut Random, root: u16, nodes: usize, full: bool) -> Rule {
        let variables = some_variables(random, self.variables);
        let left = self.left_side(random, root, nodes, &variables, full);
        let right = self.right_side(random, &left, root, nodes, full);
        Rule { left, right }
    }

    fn left_side(&self, random: &mut Random, root: u16, nodes: usize, variables: &[u16], full: bool) -> Term {
        let mut symbols = self.constructors.clone();
        if random.chance(15) {
            symbols.push(*random.pick(&self.defined));
        }
        let budget = if full { nodes } else { random.range(1, nodes) };
        let budget = budget.max(1 + usize::from(self.arity(root)));
        let left = self.applied(random, root, budget, &symbols, variables, full);
        self.shelled(random, left, nodes)
    }

    /// Mostly puts the unary constructor over an argument that the marked root counts, so that calls can fall.
    fn shelled(&self, random: &mut Random, left: Term, nodes: usize) -> Term {
        let Term::Apply(root, mut arguments) = left else {
            return left;
        };
        let counted: Vec<usize> =
            (0..arguments.len()).filter(|index| self.weights.marked.contains_key(&(root, *index as u16 + 1))).collect();
        let size: usize = arguments.iter().map(|argument| crate::checker::subterms(argument).len()).sum();
        if !counted.is_empty() && size + 1 < nodes && random.chance(85) {
            let at = *random.pick(&counted);
            arguments[at] = Term::Apply(self.constructors[1], vec![arguments[at].clone()]);
        }
        Term::Apply(root, arguments)
    }

    /// A random side, mended until its pairs and the rule suit the weights.
    fn right_side(&self, random: &mut Random, left: &Term, root: u16, nodes: usize, full: bool) -> Term {
        let on_left = variables(left);
        let mut symbols = self.defined.clone();
        symbols.extend(&self.constructors[..random.range(1, self.constructors.len())]);
        let mut budget = if full { nodes } else { random.range(1, nodes) };
        for attempt in 0..10 {
            // A call at the root is likelier to weigh nothing.
            let side = if attempt % 2 == 0 {
                self.term(random, budget, &symbols, &on_left, full)
            } else {
                let call = *random.pick(&self.defined);
                let budget = budget.max(1 + usize::from(self.arity(call)));
                self.applied(random, call, budget, &symbols, &on_left, full)
            };
            let side = self.mended(random, side, left, root, &on_left);
            if self.falls_weakly(left, &side) {
                return side;
            }
            budget = (budget * 3 / 4).max(1);
        }
        self.least_side(random, left, root, &on_left)
    }

    /// A term of at most `budget` nodes; of exactly so many if it shall be full and the arities allow it.
    fn term(&self, random: &mut Random, budget: usize, symbols: &[u16], leaves: &[u16], full: bool) -> Term {
        let fitting: Vec<u16> = symbols.iter().copied().filter(|s| self.fits(*s, budget, full)).collect();
        if fitting.is_empty() || (!full && random.chance(15)) {
            return self.leaf(random, leaves);
        }
        let symbol = *random.pick(&fitting);
        self.applied(random, symbol, budget, symbols, leaves, full)
    }

    fn fits(&self, symbol: u16, budget: usize, full: bool) -> bool {
        let arity = usize::from(self.arity(symbol));
        arity < budget && (!full || arity > 0 || budget == 1)
    }

    fn applied(
        &self,
        random: &mut Random,
        symbol: u16,
        budget: usize,
        symbols: &[u16],
        leaves: &[u16],
        full: bool,
    ) -> Term {
        let arity = usize::from(self.arity(symbol));
        let mut shares = vec![1; arity];
        for _ in 0..(budget - 1).saturating_sub(arity) {
            if arity > 0 {
                shares[random.below(arity)] += 1;
            }
        }
        let arguments = shares.iter().map(|share| self.term(random, *share, symbols, leaves, full)).collect();
        Term::Apply(symbol, arguments)
    }

    fn leaf(&self, random: &mut Random, leaves: &[u16]) -> Term {
        if leaves.is_empty() || random.chance(20) {
            let constants: Vec<u16> = self.constructors.iter().copied().filter(|s| self.arity(*s) == 0).collect();
            return Term::Apply(*random.pick(&constants), Vec::new());
        }
        Term::Variable(*random.pick(leaves))
    }

    /// Calls that neither go to a lower level nor fall become leaves, from the inside out.
    fn mended(&self, random: &mut Random, side: Term, left: &Term, root: u16, leaves: &[u16]) -> Term {
        let Term::Apply(symbol, arguments) = side else {
            return side;
        };
        let arguments = arguments.into_iter().map(|a| self.mended(random, a, left, root, leaves)).collect();
        let side = Term::Apply(symbol, arguments);
        if !self.defined.contains(&symbol) || self.may_call(left, root, &side) {
            return side;
        }
        let room = crate::checker::subterms(&side).len();
        let call = self.call(random, left, root, leaves, room);
        call.unwrap_or_else(|| self.leaf(random, leaves))
    }

    /// To a lower level, or on the same level with a fall: so all pairs of a cycle fall.
    fn may_call(&self, left: &Term, root: u16, side: &Term) -> bool {
        let level = |symbol: u16| self.levels[usize::from(symbol)];
        let symbol = crate::checker::root(side).unwrap_or(root);
        level(symbol) < level(root) || (level(symbol) == level(root) && self.falls(left, side))
    }

    /// A call of few nodes that is allowed, if one is found.
    fn call(&self, random: &mut Random, left: &Term, root: u16, leaves: &[u16], room: usize) -> Option<Term> {
        for _ in 0..4 {
            let symbol = if random.chance(50) { root } else { *random.pick(&self.defined) };
            let arguments: Vec<Term> = (0..self.arity(symbol)).map(|_| self.leaf(random, leaves)).collect();
            let side = Term::Apply(symbol, arguments);
            if usize::from(self.arity(symbol)) < room && self.may_call(left, root, &side) {
                return Some(side);
            }
        }
        None
    }

    fn falls_weakly(&self, left: &Term, right: &Term) -> bool {
        match (form(left, &self.weights.plain), form(right, &self.weights.plain)) {
            (Ok(left), Ok(right)) => at_least(&left, &right),
            _ => false,
        }
    }

    fn falls(&self, left: &Term, right: &Term) -> bool {
        strictly(left, right, &self.weights)
    }

    /// A leaf or a single call that suits the weights, if there is one.
    fn least_side(&self, random: &mut Random, left: &Term, root: u16, on_left: &[u16]) -> Term {
        for _ in 0..6 {
            let call = self.call(random, left, root, on_left, 9);
            if let Some(call) = call.filter(|call| self.falls_weakly(left, call)) {
                return call;
            }
        }
        let mut sides: Vec<Term> = on_left.iter().map(|variable| Term::Variable(*variable)).collect();
        for symbol in self.constructors.iter().chain(&self.defined) {
            let arguments = (0..self.arity(*symbol)).map(|_| self.leaf(random, on_left)).collect();
            sides.push(Term::Apply(*symbol, arguments));
        }
        random.shuffle(&mut sides);
        let suits = |side: &Term| {
            let kept = self.mended(&mut Random::new(0), side.clone(), left, root, on_left);
            kept == *side && self.falls_weakly(left, side)
        };
        let suiting = sides.iter().find(|side| suits(side)).cloned();
        suiting.unwrap_or(Term::Apply(self.constructors[0], Vec::new()))
    }
}

/// At most so many variables: the first ones, or any of the sixteen.
fn some_variables(random: &mut Random, most: usize) -> Vec<u16> {
    let mut all: Vec<u16> = (0..16).collect();
    if random.chance(50) {
        random.shuffle(&mut all);
    }
    all.truncate(random.range(1, most));
    all
}

/// Is the pair of these two sides greater on the left?
fn strictly(left: &Term, right: &Term, weights: &Weighting) -> bool {
    match (marked_form(left, weights), marked_form(right, weights)) {
        (Ok(left), Ok(right)) => greater(&left, &right),
        _ => false,
    }
}

// ---------------------------------------------------------------- certificates

/// Orders the groups of the arc graph and gives them components under these weights.
pub fn certify(random: &mut Random, pack: &Pack, weights: &Weighting) -> Vec<Component> {
    let graph = graph(pack);
    let groups = graph.groups(random);
    let falls: Vec<bool> = graph.pairs.iter().map(|pair| falls_under(pack, *pair, weights)).collect();
    let mut habits = Habits::new(random);
    let mut groups = groups;
    loop {
        let blocks = blocks(random, &graph, &groups, &falls, &habits);
        let components: Vec<Component> =
            blocks.into_iter().map(|block| dressed(random, pack, block, weights, &habits)).collect();
        if records(&components) <= RECORDS || habits.thrifty {
            return components;
        }
        habits = Habits::THRIFTY;
        groups = graph.by_class(groups, |group| group.iter().all(|index| falls[*index]));
    }
}

/// Does the pair fall, within the limit?
pub fn falls_under(pack: &Pack, pair: Pair, weights: &Weighting) -> bool {
    strictly(pair_left(pack, pair), pair_right(pack, pair), weights)
}

pub fn records(components: &[Component]) -> usize {
    certificate_bytes(components).len() / 8
}

/// How one certificate is laid out.
struct Habits {
    /// Percent of falling groups that join the component before.
    join: usize,
    /// Percent of single pairs that get weights though they need none.
    weigh: usize,
    /// Percent of components with weights of their own.
    vary: usize,
    thrifty: bool,
}

impl Habits {
    const THRIFTY: Habits = Habits { join: 100, weigh: 100, vary: 0, thrifty: true };

    fn new(random: &mut Random) -> Habits {
        Habits {
            join: *random.pick(&[0, 0, 30, 80, 100]),
            weigh: *random.pick(&[0, 20, 50, 100]),
            vary: *random.pick(&[0, 30, 100]),
            thrifty: false,
        }
    }
}

struct Block {
    weighted: bool,
    pairs: Vec<Pair>,
}

/// Groups in order, falling ones perhaps joined to the one before.
fn blocks(random: &mut Random, graph: &Graph, groups: &[Vec<usize>], falls: &[bool], habits: &Habits) -> Vec<Block> {
    let mut blocks: Vec<Block> = Vec::new();
    for group in groups {
        let alone = group.len() == 1 && !graph.has_self_arc(group[0]);
        let falling = group.iter().all(|index| falls[*index]);
        let weighted = !alone || (falling && random.chance(habits.weigh));
        let pairs: Vec<Pair> = group.iter().map(|index| graph.pairs[*index]).collect();
        match blocks.last_mut() {
            Some(last) if weighted && falling && last.weighted && random.chance(habits.join) => {
                last.pairs.extend(pairs);
                last.pairs.sort_unstable();
            }
            _ => blocks.push(Block { weighted, pairs }),
        }
    }
    blocks
}

/// A component with its weights, perhaps varied in a way that proves the same.
fn dressed(random: &mut Random, pack: &Pack, block: Block, weights: &Weighting, habits: &Habits) -> Component {
    let pairs = block.pairs;
    if !block.weighted {
        return Component { pairs, ..Component::default() };
    }
    let mut weighting = weights.clone();
    if habits.thrifty || random.chance(70) {
        keep_needed_marks(pack, &pairs, &mut weighting);
    }
    if random.chance(habits.vary) {
        vary(random, pack, &mut weighting);
    }
    Component { pairs, weightings: vec![weighting] }
}

/// Only the marked symbols at these pairs' roots matter.
fn keep_needed_marks(pack: &Pack, pairs: &[Pair], weighting: &mut Weighting) {
    let roots: Vec<u16> = pairs.iter().flat_map(|pair| roots_of(pack, *pair)).collect();
    weighting.marked.retain(|(symbol, _), _| roots.contains(symbol));
}

/// The symbols at the roots of a pair's left and right.
pub fn roots_of(pack: &Pack, pair: Pair) -> Vec<u16> {
    [pair_left(pack, pair), pair_right(pack, pair)].into_iter().filter_map(crate::checker::root).collect()
}

/// Constants times one factor prove the same; so do weights of 0 written out.
fn vary(random: &mut Random, pack: &Pack, weighting: &mut Weighting) {
    let factor = *random.pick(&[1, 1, 2, 3, 10, 100]);
    for weights in [&mut weighting.plain, &mut weighting.marked] {
        for ((_, place), value) in weights.iter_mut() {
            if *place == 0 {
                *value = value.saturating_mul(factor);
            }
        }
    }
    for _ in 0..random.below(3) {
        let symbol = random.below(pack.arities.len()) as u16;
        let place = random.range(0, usize::from(pack.arities[usize::from(symbol)])) as u16;
        weighting.plain.entry((symbol, place)).or_insert(0);
    }
}

// ---------------------------------------------------------------- the most pairs

/// 64 rules with 32 nodes on the right, all but `holes` of them pairs; accepted if there is a hole.
pub fn dense(random: &mut Random, holes: usize) -> Base {
    let shape = Dense::new(random);
    let mut pack = Pack { arities: shape.arities.clone(), rules: Vec::new() };
    let mut holes_left = holes;
    for number in 0..64 {
        pack.rules.push(shape.rule(random, number, &mut holes_left));
    }
    // A certificate needs the lowest rule's hole; a place for the rest is any leaf.
    let weights = shape.weights();
    let components = certify(random, &pack, &weights);
    Base { pack, components }
}

/// The same with two weightings: under the first the calls of the lowest constant stay.
pub fn dense_in_two(random: &mut Random, holes: usize) -> Base {
    let mut base = dense(random, holes);
    for component in &mut base.components {
        if let Some(second) = component.weightings.pop() {
            let mut first = second.clone();
            let great = second.plain.get(&(GREAT, 0)).copied().unwrap_or(0);
            first.marked.insert((LOWEST, 0), great);
            component.weightings = under_which_some_leave(&base.pack, &component.pairs, vec![first, second]);
        }
    }
    base
}

/// Symbols of a dense pack: two constants, a unary one, lowest constant call, then calls.
struct Dense {
    arities: Vec<u16>,
    /// Does a call only reach calls of no higher number?
    layered: bool,
    widest: usize,
}

const ZERO: u16 = 0;
const GREAT: u16 = 1;
const SHELL: u16 = 2;
const LOWEST: u16 = 3;
const FIRST_CALL: u16 = 4;

impl Dense {
    fn new(random: &mut Random) -> Dense {
        let calls = random.range(1, 60);
        let widest = *random.pick(&[1, 2, 8]);
        let mut arities = vec![0, 0, 1, 0, 1];
        arities.extend((1..calls).map(|_| random.range(1, widest) as u16));
        Dense { arities, layered: random.chance(60), widest }
    }

    fn calls(&self) -> usize {
        self.arities.len() - usize::from(FIRST_CALL)
    }

    /// Rule 0 is the lowest constant's, the others share the calls.
    fn rule(&self, random: &mut Random, number: usize, holes: &mut usize) -> Rule {
        if number == 0 {
            let left = Term::Apply(LOWEST, Vec::new());
            let inside = if *holes > 0 { ZERO } else { LOWEST };
            *holes = holes.saturating_sub(1);
            return Rule { left, right: chain(FIRST_CALL, 31, Term::Apply(inside, Vec::new())) };
        }
        let call = FIRST_CALL + ((number - 1) % self.calls()) as u16;
        Rule { left: self.left_side(random, call), right: self.right_side(random, call, 32, holes) }
    }

    /// The first argument is great, under some shells; the others are constants.
    fn left_side(&self, random: &mut Random, call: u16) -> Term {
        let arity = usize::from(self.arities[usize::from(call)]);
        let shells = random.below(32 - 1 - arity);
        let mut arguments = vec![chain(SHELL, shells, Term::Apply(GREAT, Vec::new()))];
        arguments.extend((1..arity).map(|_| Term::Apply(ZERO, Vec::new())));
        Term::Apply(call, arguments)
    }

    /// Exactly `nodes` nodes, all calls but the holes.
    fn right_side(&self, random: &mut Random, root: u16, nodes: usize, holes: &mut usize) -> Term {
        if nodes == 1 {
            let hole = *holes > 0 && random.chance(30);
            *holes -= usize::from(hole);
            return Term::Apply(if hole { ZERO } else { LOWEST }, Vec::new());
        }
        let call = self.some_call(random, root, nodes - 1);
        let arity = usize::from(self.arities[usize::from(call)]);
        let mut shares = vec![1; arity];
        for _ in 0..nodes - 1 - arity {
            shares[random.below(arity)] += 1;
        }
        Term::Apply(call, shares.iter().map(|share| self.right_side(random, root, *share, holes)).collect())
    }

    /// A call with at most so many arguments; the first call is always one.
    fn some_call(&self, random: &mut Random, root: u16, most: usize) -> u16 {
        let end = if self.layered { usize::from(root - FIRST_CALL) + 1 } else { self.calls() };
        let call = FIRST_CALL + random.below(end) as u16;
        if usize::from(self.arities[usize::from(call)]) <= most.min(self.widest) {
            call
        } else {
            FIRST_CALL
        }
    }

    /// Great is 2, the marked lowest 1, a marked call its first argument, all other calls 0.
    fn weights(&self) -> Weighting {
        let mut weights = Weighting::default();
        weights.plain.insert((GREAT, 0), 2);
        weights.plain.insert((SHELL, 1), 1);
        weights.marked.insert((LOWEST, 0), 1);
        for call in FIRST_CALL..self.arities.len() as u16 {
            weights.marked.insert((call, 1), 1);
        }
        weights
    }
}

fn chain(symbol: u16, length: usize, inside: Term) -> Term {
    (0..length).fold(inside, |term, _| Term::Apply(symbol, vec![term]))
}

// ---------------------------------------------------------------- without guidance

/// Rules of chance under weights of chance; groups are still ordered.
pub fn unguided(random: &mut Random, size: Size) -> Base {
    let (rules, symbols, nodes, variables) = extent(random, size);
    let plan = plan(random, symbols, rules, variables, size);
    let mut pack = Pack { arities: plan.arities.clone(), rules: Vec::new() };
    let all: Vec<u16> = (0..symbols as u16).collect();
    for _ in 0..rules {
        let names = some_variables(random, variables);
        let (root, budget) = (*random.pick(&all), random.range(1, nodes));
        let left = plan.left_side(random, root, nodes, &names, false);
        let on_left = self::variables(&left);
        let right = plan.term(random, budget, &all, &on_left, false);
        pack.rules.push(Rule { left, right });
    }
    let components = certify(random, &pack, &plan.weights);
    let components = only_defined_marks(&pack, components);
    Base { pack, components }
}

/// The plan's defined symbols need not be the pack's.
fn only_defined_marks(pack: &Pack, mut components: Vec<Component>) -> Vec<Component> {
    for weighting in components.iter_mut().flat_map(|component| &mut component.weightings) {
        weighting.marked.retain(|(symbol, _), _| crate::checker::is_defined(pack, *symbol));
    }
    components
}
