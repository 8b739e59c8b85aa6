//! An independent checker, written from document 01, document 02's N2 and N4, and for N4 Arts and Giesl's paper (the
//! documents' 000), alone.
//!
//! Trees, vectors and obvious loops; each function cites the sentence of these papers it stands for.
//! Speed is no aim here: see `tuned.rs` for the fast one.

use std::collections::BTreeMap;

/// "pack at most 33,792 bytes"
pub const PACK_LIMIT: usize = 33_792;
/// "certificate at most 24,576"
pub const CERTIFICATE_LIMIT: usize = 24_576;
/// "At most 64 symbols"
pub const SYMBOL_LIMIT: usize = 64;
/// "64 rules"
pub const RULE_LIMIT: usize = 64;
/// "1 to 32 nodes a side"
pub const NODE_LIMIT: u16 = 32;
/// "arity, 0 to 8"
pub const ARITY_LIMIT: u16 = 8;
/// "V variable | pack | 0 to 15"
pub const VARIABLE_LIMIT: u16 = 15;
/// "pairs, 1 to 2,048"
pub const PAIR_LIMIT: u16 = 2_048;
/// "C's b now runs to 8."
pub const WEIGHTING_LIMIT: u16 = 8;
/// "Every constant and coefficient of every node's form is at most 4,294,967,295"
pub const FORM_LIMIT: u64 = 4_294_967_295;

/// The table "The loader's numbers".
pub const CUT_FILE: u32 = 1;
pub const STRAY_RECORD: u32 = 2;
pub const OUT_OF_RANGE: u32 = 3;
pub const BROKEN_SIDE: u32 = 4;
pub const BARE_LEFT: u32 = 5;
pub const LOOSE_VARIABLE: u32 = 6;
pub const NO_SUCH_PAIR: u32 = 7;
pub const PAIR_COUNT: u32 = 8;
pub const BACK_ARC: u32 = 9;
pub const SELF_ARC: u32 = 10;
pub const HEAVY: u32 = 11;
pub const RULE_RISES: u32 = 12;
pub const PAIR_STAYS: u32 = 13;
pub const SHORT_LIST: u32 = 14;
/// "17 for a weighting under which no pair leaves"
pub const IDLE_WEIGHTING: u32 = 17;

/// "A term over a pack is a variable, or a symbol of the pack with as many terms as its arity."
#[derive(Clone, Debug, PartialEq, Eq)]
pub enum Term {
    Variable(u16),
    Apply(u16, Vec<Term>),
}

/// A rule is its two sides.
#[derive(Clone, Debug, PartialEq, Eq)]
pub struct Rule {
    pub left: Term,
    pub right: Term,
}

/// A pack is its symbols' arities and its rules.
#[derive(Clone, Debug, Default, PartialEq, Eq)]
pub struct Pack {
    pub arities: Vec<u16>,
    pub rules: Vec<Rule>,
}

/// "A pair (rule, place)"
pub type Pair = (u16, u16);

/// Values by (symbol, place): "W weight | certificate | symbol | 0 constant, i argument i | value"
pub type Weights = BTreeMap<(u16, u16), u16>;

/// The values of one weighting, those of its W and those of its M records.
#[derive(Clone, Debug, Default, PartialEq, Eq)]
pub struct Weighting {
    pub plain: Weights,
    pub marked: Weights,
}

/// One C record and what follows it; without weightings it is a component without weights.
#[derive(Clone, Debug, Default, PartialEq, Eq)]
pub struct Component {
    pub pairs: Vec<Pair>,
    pub weightings: Vec<Weighting>,
}

impl Component {
    pub fn is_weighted(&self) -> bool {
        !self.weightings.is_empty()
    }
}

/// "a constant and a coefficient for each variable, in whole numbers"
#[derive(Clone, Debug, Default, PartialEq, Eq)]
pub struct Form {
    pub constant: u64,
    pub coefficients: BTreeMap<u16, u64>,
}

// ---------------------------------------------------------------- the three questions

/// Whether an arc leads from a pair with this right to one with this left; all else of the two pairs is no matter.
pub type Arcs = fn(&Pack, &Term, &Term) -> bool;

/// The check: 0 for accepted, else the number of the refusal.
pub fn check(pack: &[u8], certificate: &[u8]) -> u32 {
    check_by(connectable, pack, certificate)
}

/// The check with these arcs.
pub fn check_by(arcs: Arcs, pack: &[u8], certificate: &[u8]) -> u32 {
    match judge(arcs, pack, certificate) {
        Ok(()) => 0,
        Err(number) => number,
    }
}

/// "The listing judges the pack alone (1 to 6), then 14."
pub fn list(pack: &[u8], room: usize) -> Result<Vec<Pair>, u32> {
    let pack = judge_pack(pack)?;
    let pairs = pairs(&pack);
    demand(pairs.len() * 8 <= room, SHORT_LIST)?;
    Ok(pairs)
}

/// "The arc question judges the pack, then 7 for its two pairs."
pub fn arc(pack: &[u8], rule: u32, place: u32, other_rule: u32, other_place: u32) -> Result<bool, u32> {
    let pack = judge_pack(pack)?;
    let from = named_pair(&pack, rule, place)?;
    let to = named_pair(&pack, other_rule, other_place)?;
    Ok(arc_runs(&pack, from, to))
}

/// "Order: 1 for the pack, 1 for the certificate, then the pack .., then the certificate .., then 8, then 9, then each component in turn"
fn judge(arcs: Arcs, pack: &[u8], certificate: &[u8]) -> Result<(), u32> {
    judge_length(pack, PACK_LIMIT)?;
    judge_length(certificate, CERTIFICATE_LIMIT)?;
    let pack = read_pack(pack)?;
    let components = read_certificate(certificate, &pack)?;
    judge_pair_count(&pack, &components)?;
    judge_back_arcs(arcs, &pack, &components)?;
    for component in &components {
        judge_component(arcs, &pack, component)?;
    }
    Ok(())
}

/// "A pack passes 1 to 6 if, judged alone, it is given none of these numbers"
pub fn judge_pack(file: &[u8]) -> Result<Pack, u32> {
    judge_length(file, PACK_LIMIT)?;
    read_pack(file)
}

/// "a length is over its limit or no multiple of 8"
fn judge_length(file: &[u8], limit: usize) -> Result<(), u32> {
    demand(file.len() <= limit && file.len().is_multiple_of(8), CUT_FILE)
}

/// "A refusal is the number alone"
pub(crate) fn demand(holds: bool, number: u32) -> Result<(), u32> {
    if holds {
        Ok(())
    } else {
        Err(number)
    }
}

// ---------------------------------------------------------------- records

/// "Byte 0 is the kind .. Byte 1 is zero. Bytes 2-3, 4-5 and 6-7 are a, b and c, unsigned, low byte first"
#[derive(Clone, Copy, Debug, PartialEq, Eq)]
struct Record {
    kind: u8,
    zero: u8,
    a: u16,
    b: u16,
    c: u16,
}

/// "Both files are read by one record reader that knows its place."
struct Reader<'a> {
    file: &'a [u8],
    offset: usize,
}

impl Reader<'_> {
    /// "Both files are records of 8 bytes without a header."
    fn peek(&self) -> Option<Record> {
        let bytes = self.file.get(self.offset..self.offset + 8)?;
        let field = |at: usize| u16::from_le_bytes([bytes[at], bytes[at + 1]]);
        Some(Record { kind: bytes[0], zero: bytes[1], a: field(2), b: field(4), c: field(6) })
    }

    /// The kind that stands next, none at the file's end.
    fn kind(&self) -> Option<u8> {
        self.peek().map(|record| record.kind)
    }

    /// "A record that is not of the kind wanted ends the reading there, with number 2."
    fn take(&mut self, kinds: &[u8]) -> Result<Record, u32> {
        let record = self.peek().ok_or(STRAY_RECORD)?;
        demand(kinds.contains(&record.kind), STRAY_RECORD)?;
        demand(record.zero == 0, STRAY_RECORD)?;
        self.offset += 8;
        Ok(record)
    }
}

// ---------------------------------------------------------------- the pack

/// "start of pack | S, end" and "S | S, R, end" and "F or V | .. R, end after it"
fn read_pack(file: &[u8]) -> Result<Pack, u32> {
    let mut reader = Reader { file, offset: 0 };
    let mut pack = Pack::default();
    while reader.kind() == Some(b'S') {
        let arity = read_symbol(&mut reader, pack.arities.len())?;
        pack.arities.push(arity);
    }
    // A rule may not stand at the start of a pack.
    demand(reader.kind().is_none() || !pack.arities.is_empty(), STRAY_RECORD)?;
    while reader.kind().is_some() {
        let rule = read_rule(&mut reader, &pack)?;
        pack.rules.push(rule);
    }
    Ok(pack)
}

/// "S symbol | pack | its number, 0, 1, 2 .. | arity, 0 to 8 | "
fn read_symbol(reader: &mut Reader, number: usize) -> Result<u16, u32> {
    let record = reader.take(b"S")?;
    demand(record.c == 0, STRAY_RECORD)?;
    demand(usize::from(record.a) == number, STRAY_RECORD)?;
    demand(number < SYMBOL_LIMIT, OUT_OF_RANGE)?;
    demand(record.b <= ARITY_LIMIT, OUT_OF_RANGE)?;
    Ok(record.b)
}

/// "after a rule's last node 4 left, 4 right, 5, 6"
fn read_rule(reader: &mut Reader, pack: &Pack) -> Result<Rule, u32> {
    let (left_nodes, right_nodes) = read_rule_head(reader, pack.rules.len())?;
    let left = read_nodes(reader, left_nodes, pack)?;
    let right = read_nodes(reader, right_nodes, pack)?;
    let left = one_term(&left, &pack.arities)?;
    let right = one_term(&right, &pack.arities)?;
    demand(matches!(left, Term::Apply(..)), BARE_LEFT)?;
    demand(variables_within(&right, &left), LOOSE_VARIABLE)?;
    Ok(Rule { left, right })
}

/// "R rule | pack | its number, 0, 1, 2 .. | nodes on the left | nodes on the right"
fn read_rule_head(reader: &mut Reader, number: usize) -> Result<(u16, u16), u32> {
    let record = reader.take(b"R")?;
    demand(usize::from(record.a) == number, STRAY_RECORD)?;
    demand(number < RULE_LIMIT, OUT_OF_RANGE)?;
    demand((1..=NODE_LIMIT).contains(&record.b), OUT_OF_RANGE)?;
    demand((1..=NODE_LIMIT).contains(&record.c), OUT_OF_RANGE)?;
    Ok((record.b, record.c))
}

/// "A side is its nodes in prefix order."
fn read_nodes(reader: &mut Reader, count: u16, pack: &Pack) -> Result<Vec<Record>, u32> {
    let mut nodes = Vec::new();
    for _ in 0..count {
        nodes.push(read_node(reader, pack)?);
    }
    Ok(nodes)
}

/// "F application | pack | symbol" and "V variable | pack | 0 to 15"
fn read_node(reader: &mut Reader, pack: &Pack) -> Result<Record, u32> {
    let record = reader.take(b"FV")?;
    demand(record.b == 0 && record.c == 0, STRAY_RECORD)?;
    if record.kind == b'F' {
        demand(usize::from(record.a) < pack.arities.len(), OUT_OF_RANGE)?;
    } else {
        demand(record.a <= VARIABLE_LIMIT, OUT_OF_RANGE)?;
    }
    Ok(record)
}

/// "a side's nodes are not exactly one term"
fn one_term(nodes: &[Record], arities: &[u16]) -> Result<Term, u32> {
    match term_at_front(nodes, arities) {
        Some((term, [])) => Ok(term),
        _ => Err(BROKEN_SIDE),
    }
}

/// "a variable, or a symbol of the pack with as many terms as its arity"; answers the term and the nodes after it.
fn term_at_front<'a>(nodes: &'a [Record], arities: &[u16]) -> Option<(Term, &'a [Record])> {
    let (first, mut rest) = nodes.split_first()?;
    if first.kind == b'V' {
        return Some((Term::Variable(first.a), rest));
    }
    let mut arguments = Vec::new();
    for _ in 0..*arities.get(usize::from(first.a))? {
        let (argument, after) = term_at_front(rest, arities)?;
        arguments.push(argument);
        rest = after;
    }
    Some((Term::Apply(first.a, arguments), rest))
}

/// "a variable of the right is not on the left"
fn variables_within(right: &Term, left: &Term) -> bool {
    let on_left = variables(left);
    variables(right).iter().all(|variable| on_left.contains(variable))
}

/// The variables of a term, in prefix order, with repetitions.
pub fn variables(term: &Term) -> Vec<u16> {
    match term {
        Term::Variable(number) => vec![*number],
        Term::Apply(_, arguments) => arguments.iter().flat_map(variables).collect(),
    }
}

// ---------------------------------------------------------------- pairs

/// The nodes of a side: "places count that side's nodes from 0".
pub fn subterms(term: &Term) -> Vec<&Term> {
    let mut all = vec![term];
    if let Term::Apply(_, arguments) = term {
        all.extend(arguments.iter().flat_map(subterms));
    }
    all
}

/// The symbol a term applies at its root, none for a variable.
pub fn root(term: &Term) -> Option<u16> {
    match term {
        Term::Variable(_) => None,
        Term::Apply(symbol, _) => Some(*symbol),
    }
}

/// "A symbol is *defined* if it is the root of some left side, else a *constructor*."
pub fn is_defined(pack: &Pack, symbol: u16) -> bool {
    pack.rules.iter().any(|rule| root(&rule.left) == Some(symbol))
}

/// "for each node of a right side that applies a defined symbol"
fn applies_defined(pack: &Pack, term: &Term) -> bool {
    root(term).is_some_and(|symbol| is_defined(pack, symbol))
}

/// "A pair (rule, place) exists for each node of a right side that applies a defined symbol"; rising.
pub fn pairs(pack: &Pack) -> Vec<Pair> {
    let mut all = Vec::new();
    for (rule_number, rule) in pack.rules.iter().enumerate() {
        for (place, node) in subterms(&rule.right).into_iter().enumerate() {
            if applies_defined(pack, node) {
                all.push((rule_number as u16, place as u16));
            }
        }
    }
    all
}

/// The node of a right side that a pair names, if it names one of the pack.
fn pair_node(pack: &Pack, pair: Pair) -> Option<&Term> {
    let rule = pack.rules.get(usize::from(pair.0))?;
    let node = subterms(&rule.right).into_iter().nth(usize::from(pair.1))?;
    applies_defined(pack, node).then_some(node)
}

/// "Its left is the rule's left side" (the mark of the root is held apart).
pub fn pair_left(pack: &Pack, pair: Pair) -> &Term {
    &pack.rules[usize::from(pair.0)].left
}

/// "and its right the subterm at the place" (the mark of the root is held apart).
pub fn pair_right(pack: &Pack, pair: Pair) -> &Term {
    pair_node(pack, pair).expect("only pairs of the pack are asked for")
}

/// "a P names no pair of the pack"; numbers too great for a file name none either.
fn named_pair(pack: &Pack, rule: u32, place: u32) -> Result<Pair, u32> {
    let rule = u16::try_from(rule).map_err(|_| NO_SUCH_PAIR)?;
    let place = u16::try_from(place).map_err(|_| NO_SUCH_PAIR)?;
    demand(pair_node(pack, (rule, place)).is_some(), NO_SUCH_PAIR)?;
    Ok((rule, place))
}

// ---------------------------------------------------------------- arcs

/// "An arc shall now need a unifier, as 000 has it", for two pairs of the pack.
pub fn arc_runs(pack: &Pack, from: Pair, to: Pair) -> bool {
    connectable(pack, pair_right(pack, from), pair_left(pack, to))
}

/// "the term t is connectable to v if REN(CAP(t)) and v are unifiable" (Arts and Giesl, Definition 18); a marked root is no defined
/// symbol and equals itself alone, so that it stays and is compared first.
pub fn connectable(pack: &Pack, right: &Term, left: &Term) -> bool {
    match (right, left) {
        (Term::Apply(f, from), Term::Apply(g, to)) => f == g && unifiable(&all_capped(pack, from), to),
        _ => false,
    }
}

/// The first fresh variable: no file has one of that number.
const FRESH: u16 = VARIABLE_LIMIT + 1;

/// "below the marked root"; "REN(t) is always a linear term", so the fresh variables run on from argument to argument.
fn all_capped(pack: &Pack, arguments: &[Term]) -> Vec<Term> {
    let mut next = FRESH;
    arguments.iter().map(|argument| capped(pack, argument, &mut next)).collect()
}

/// REN(CAP(t)): "put a fresh variable for each subterm with a defined root and for each variable occurrence"
fn capped(pack: &Pack, term: &Term, next: &mut u16) -> Term {
    match term {
        Term::Apply(symbol, arguments) if !is_defined(pack, *symbol) => {
            Term::Apply(*symbol, arguments.iter().map(|argument| capped(pack, argument, next)).collect())
        }
        _ => fresh_variable(next),
    }
}

/// "a second argument which contains the next fresh variable that has not yet been used"
fn fresh_variable(next: &mut u16) -> Term {
    let fresh = *next;
    *next += 1;
    Term::Variable(fresh)
}

// ---------------------------------------------------------------- unification

/// The variables that have a value so far; a value may have variables that have one themselves.
type Bindings<'a> = BTreeMap<u16, &'a Term>;

/// "An arc is denied exactly if no substitution makes the two equal": is there one that makes each of these terms equal
/// to that of the others at its position? Robinson's algorithm: an equation at a time is taken apart or binds a variable.
pub fn unifiable(these: &[Term], others: &[Term]) -> bool {
    let mut equations: Vec<(&Term, &Term)> = these.iter().zip(others).collect();
    let mut bindings = Bindings::new();
    while let Some((one, other)) = equations.pop() {
        match (value(one, &bindings), value(other, &bindings)) {
            (Term::Variable(x), Term::Variable(y)) if x == y => {}
            (Term::Variable(x), term) | (term, Term::Variable(x)) => {
                if occurs(*x, term, &bindings) {
                    return false;
                }
                bindings.insert(*x, term);
            }
            (Term::Apply(f, from), Term::Apply(g, to)) => {
                if f != g {
                    return false;
                }
                equations.extend(from.iter().zip(to));
            }
        }
    }
    true
}

/// What the term stands for at its root: a variable without a value, or a symbol with its arguments.
fn value<'a>(mut term: &'a Term, bindings: &Bindings<'a>) -> &'a Term {
    while let Some(bound) = variable_of(term).and_then(|variable| bindings.get(&variable)) {
        term = bound;
    }
    term
}

/// The variable that a term is, none if it applies a symbol.
fn variable_of(term: &Term) -> Option<u16> {
    match term {
        Term::Variable(number) => Some(*number),
        Term::Apply(..) => None,
    }
}

/// The occurs check: no finite term is equal to a term that it stands in.
fn occurs(variable: u16, term: &Term, bindings: &Bindings) -> bool {
    match value(term, bindings) {
        Term::Variable(number) => *number == variable,
        Term::Apply(_, arguments) => arguments.iter().any(|argument| occurs(variable, argument, bindings)),
    }
}

// ---------------------------------------------------------------- the certificate

/// "start of certificate | C, end", and C or the end after each component
pub fn read_certificate(file: &[u8], pack: &Pack) -> Result<Vec<Component>, u32> {
    let mut reader = Reader { file, offset: 0 };
    let mut components = Vec::new();
    while reader.kind().is_some() {
        let component = read_component(&mut reader, components.len(), pack)?;
        components.push(component);
    }
    Ok(components)
}

/// "C | P", "P | P while the count lasts; then C, end", and what the weightings bring between the pairs and that
fn read_component(reader: &mut Reader, number: usize, pack: &Pack) -> Result<Component, u32> {
    let (weightings, count) = read_component_head(reader, number)?;
    let mut component = Component::default();
    for _ in 0..count {
        let pair = read_pair(reader, component.pairs.last().copied(), pack)?;
        component.pairs.push(pair);
    }
    for number in 0..weightings {
        // "The second and later weightings each begin with a record L"
        if number > 0 {
            read_weighting_head(reader, number)?;
        }
        component.weightings.push(read_weighting(reader, pack)?);
    }
    Ok(component)
}

/// "C component | certificate | its number, 0, 1, 2 .. | weightings | pairs, 1 to 2,048", and "C's b now runs to 8."
fn read_component_head(reader: &mut Reader, number: usize) -> Result<(u16, u16), u32> {
    let record = reader.take(b"C")?;
    demand(usize::from(record.a) == number, STRAY_RECORD)?;
    // "a second pair in a component without a weighting is met at its C"
    demand(record.b != 0 || record.c <= 1, STRAY_RECORD)?;
    demand(record.b <= WEIGHTING_LIMIT, OUT_OF_RANGE)?;
    demand((1..=PAIR_LIMIT).contains(&record.c), OUT_OF_RANGE)?;
    Ok((record.b, record.c))
}

/// "a record L, whose a is its number from 1", "L may follow P, W, M or L", "one missing, too many or out of sequence is 2"
fn read_weighting_head(reader: &mut Reader, number: u16) -> Result<(), u32> {
    let record = reader.take(b"L")?;
    demand(record.b == 0 && record.c == 0, STRAY_RECORD)?;
    demand(record.a == number, STRAY_RECORD)
}

/// "its W and M follow and rise afresh", and after L "may stand what may after W"
fn read_weighting(reader: &mut Reader, pack: &Pack) -> Result<Weighting, u32> {
    let mut weighting = Weighting::default();
    while reader.kind() == Some(b'W') {
        let (place, value) = read_weight(reader, b"W", &weighting.plain, pack)?;
        weighting.plain.insert(place, value);
    }
    while reader.kind() == Some(b'M') {
        let (place, value) = read_weight(reader, b"M", &weighting.marked, pack)?;
        weighting.marked.insert(place, value);
    }
    Ok(weighting)
}

/// "P records of one component rise by (rule, place)", then "a P names no pair of the pack"
fn read_pair(reader: &mut Reader, last: Option<Pair>, pack: &Pack) -> Result<Pair, u32> {
    let record = reader.take(b"P")?;
    let pair = (record.a, record.b);
    demand(record.c == 0, STRAY_RECORD)?;
    demand(last.is_none_or(|last| last < pair), STRAY_RECORD)?;
    demand(pair_node(pack, pair).is_some(), NO_SUCH_PAIR)?;
    Ok(pair)
}

/// "W records rise by (a, b), M records likewise", then symbol, place and mark in range
fn read_weight(reader: &mut Reader, kind: &[u8], before: &Weights, pack: &Pack) -> Result<((u16, u16), u16), u32> {
    let record = reader.take(kind)?;
    let place = (record.a, record.b);
    demand(before.keys().all(|earlier| *earlier < place), STRAY_RECORD)?;
    let arity = pack.arities.get(usize::from(record.a)).ok_or(OUT_OF_RANGE)?;
    demand(record.b <= *arity, OUT_OF_RANGE)?;
    // "or M names a constructor"
    demand(record.kind == b'W' || is_defined(pack, record.a), OUT_OF_RANGE)?;
    Ok((place, record.c))
}

// ---------------------------------------------------------------- what a certificate must show

/// "Every pair of the pack stands exactly once."
fn judge_pair_count(pack: &Pack, components: &[Component]) -> Result<(), u32> {
    let named: Vec<Pair> = components.iter().flat_map(|component| component.pairs.iter().copied()).collect();
    for pair in pairs(pack) {
        demand(named.iter().filter(|other| **other == pair).count() == 1, PAIR_COUNT)?;
    }
    Ok(())
}

/// "No arc leads from a component to one with a lower number."
fn judge_back_arcs(arcs: Arcs, pack: &Pack, components: &[Component]) -> Result<(), u32> {
    for (number, component) in components.iter().enumerate() {
        for from in &component.pairs {
            let right = pair_right(pack, *from);
            for lower in &components[..number] {
                let back = lower.pairs.iter().any(|to| arcs(pack, right, pair_left(pack, *to)));
                demand(!back, BACK_ARC)?;
            }
        }
    }
    Ok(())
}

/// "then each component in turn: 10, or 11 over all rules and its pairs, then 12, then 13", now "weighting by weighting"
fn judge_component(arcs: Arcs, pack: &Pack, component: &Component) -> Result<(), u32> {
    if component.is_weighted() {
        judge_weightings(pack, component)
    } else {
        judge_self_arc(arcs, pack, component)
    }
}

/// "A component without a weighting has one pair, and no arc from that pair to itself."
fn judge_self_arc(arcs: Arcs, pack: &Pack, component: &Component) -> Result<(), u32> {
    let itself = component.pairs.iter().any(|pair| arcs(pack, pair_right(pack, *pair), pair_left(pack, *pair)));
    demand(!itself, SELF_ARC)
}

/// "pairs that fall leave. None may remain after the last."
fn judge_weightings(pack: &Pack, component: &Component) -> Result<(), u32> {
    let mut present = component.pairs.clone();
    for (weighting, number) in component.weightings.iter().zip(1..) {
        let last = number == component.weightings.len();
        present = judge_weighting(pack, weighting, &present, last)?;
    }
    Ok(())
}

/// "after its 11 and 12: 13, now a pair that rises, or one that remains after the last; then 17 for a weighting under
/// which no pair leaves"; answers the pairs that remain.
fn judge_weighting(pack: &Pack, weighting: &Weighting, present: &[Pair], last: bool) -> Result<Vec<Pair>, u32> {
    let rules = rule_forms(pack, weighting)?;
    let pairs = pair_forms(pack, weighting, present)?;
    demand(rules.iter().all(|(left, right)| at_least(left, right)), RULE_RISES)?;
    demand(pairs.iter().all(|(left, right)| at_least(left, right)), PAIR_STAYS)?;
    let mut remaining = Vec::new();
    for (pair, (left, right)) in present.iter().zip(&pairs) {
        if !greater(left, right) {
            remaining.push(*pair);
        }
    }
    demand(!last || remaining.is_empty(), PAIR_STAYS)?;
    demand(remaining.len() < present.len(), IDLE_WEIGHTING)?;
    Ok(remaining)
}

/// "all rules .. must have a left at least the right": the forms of their sides under this weighting's plain weights.
fn rule_forms(pack: &Pack, weighting: &Weighting) -> Result<Vec<(Form, Form)>, u32> {
    let side = |term: &Term| form(term, &weighting.plain);
    pack.rules.iter().map(|rule| Ok((side(&rule.left)?, side(&rule.right)?))).collect()
}

/// "11 looks at pairs still present": the forms of their sides, "both with marked roots".
fn pair_forms(pack: &Pack, weighting: &Weighting, present: &[Pair]) -> Result<Vec<(Form, Form)>, u32> {
    let side = |term: &Term| marked_form(term, weighting);
    let both = |pair: &Pair| Ok((side(pair_left(pack, *pair))?, side(pair_right(pack, *pair))?));
    present.iter().map(both).collect()
}

// ---------------------------------------------------------------- forms

/// "The form of a side is worked out from the forms of its arguments"
pub fn form(term: &Term, plain: &Weights) -> Result<Form, u32> {
    match term {
        Term::Variable(number) => Ok(Form { constant: 0, coefficients: BTreeMap::from([(*number, 1)]) }),
        Term::Apply(symbol, arguments) => applied_form(*symbol, plain, arguments, plain),
    }
}

/// The form of a pair's side: its root has the marked weights, all below it the plain ones.
pub fn marked_form(term: &Term, weighting: &Weighting) -> Result<Form, u32> {
    match term {
        Term::Variable(_) => form(term, &weighting.plain),
        Term::Apply(symbol, arguments) => applied_form(*symbol, &weighting.marked, arguments, &weighting.plain),
    }
}

/// "A symbol of arity n stands for constant + the sum of weight i × argument i."
fn applied_form(symbol: u16, weights: &Weights, arguments: &[Term], plain: &Weights) -> Result<Form, u32> {
    let mut sum = Form { constant: weight(weights, symbol, 0), ..Form::default() };
    for (argument, place) in arguments.iter().zip(1..) {
        let argument = form(argument, plain)?;
        add_times(&mut sum, weight(weights, symbol, place), &argument);
    }
    within_limit(sum)
}

/// "A weight not named is 0; a named value may be 0 too."
fn weight(weights: &Weights, symbol: u16, place: u16) -> u64 {
    weights.get(&(symbol, place)).map_or(0, |value| u64::from(*value))
}

/// sum := sum + factor × argument; the argument is within the limit, so nothing passes 64 bits.
fn add_times(sum: &mut Form, factor: u64, argument: &Form) {
    sum.constant += factor * argument.constant;
    for (variable, coefficient) in &argument.coefficients {
        *sum.coefficients.entry(*variable).or_insert(0) += factor * coefficient;
    }
}

/// "Every constant and coefficient of every node's form is at most 4,294,967,295, nodes under a weight 0 included."
fn within_limit(form: Form) -> Result<Form, u32> {
    let fits = form.constant <= FORM_LIMIT && form.coefficients.values().all(|value| *value <= FORM_LIMIT);
    demand(fits, HEAVY)?;
    Ok(form)
}

/// "Over all naturals, one form is at least another exactly if its constant and each coefficient are"
pub fn at_least(left: &Form, right: &Form) -> bool {
    let coefficient = |variable: &u16| left.coefficients.get(variable).copied().unwrap_or(0);
    let each = right.coefficients.iter().all(|(variable, value)| coefficient(variable) >= *value);
    left.constant >= right.constant && each
}

/// "it is greater exactly if besides its constant is greater"
pub fn greater(left: &Form, right: &Form) -> bool {
    at_least(left, right) && left.constant > right.constant
}
