//! A second implementation, tuned: index tables instead of trees, one lasting workspace a thread, no heap while it works.
//!
//! A rule's nodes lie flat in prefix order. Each knows its parent, the cell of the weight it stands
//! under and the first node after its subterm. A root's form is then one forward pass over its nodes
//! (each node's factor is its parent's factor times one weight), and the limit is one backward pass
//! with a single number a node: the form's value where every variable is 1, which bounds all its parts.
//! Only where that bound passes the limit is the form itself looked at.
//! Of a component with several weightings the pairs still present are kept as a list that only shrinks.
//! An arc is one walk down both sides. Only where that finds nothing against it, and the left has a variable twice, are
//! they walked again, and the subterms that one variable meets are laid over each other.

use std::cell::RefCell;

/// Codes from here on are variables; below are symbols.
const VARIABLE: usize = 64;
/// Codes, rounded up so that a byte masked by 127 is always inside.
const CODES: usize = 128;
/// Cells a symbol has in the weight table: its constant, then its arguments.
const STEP: usize = 16;
/// The marked weights lie after the plain ones (and after the ones of the variables, which are 1).
const MARKED: usize = 80 * STEP;
const CELLS: usize = 2 * MARKED;
/// A cell no weight has: it stays 0 and stands over every side's root.
const NO_WEIGHT: u16 = 1_023;
/// Where a form keeps its constant; slots 0 to 15 are the variables.
const CONSTANT: usize = 16;
const SLOTS: usize = 17;
const NODES: usize = 4_096;
/// The most nodes of a side, and the most variables.
const SIDE: usize = 32;
const VARIABLES: usize = 16;
/// The first node of all is a left side's, and no variable's value.
const NO_NODE: u16 = 0;
/// The most pairs of a component, and the most weightings.
const PAIRS: usize = 2_048;
const WEIGHTINGS: u16 = 8;
const NO_RULE: u8 = 255;
const LIMIT: u64 = u32::MAX as u64;

type Form = [i64; SLOTS];

/// The left of the pair in hand: pairs of one rule stand together and share it.
struct Left {
    rule: usize,
    form: Form,
}

impl Left {
    const NONE: Left = Left { rule: usize::MAX, form: [0; SLOTS] };
}

/// A bit for each variable of a side, for each that it has twice or more, and whether its nodes are exactly one term.
struct Side {
    variables: u16,
    repeated: u16,
    whole: bool,
}

/// The nodes of the right that stand for variables, each of the left's and each loose node of the right.
struct Values {
    root: usize,
    first: [u16; VARIABLES],
    /// Counted from the root.
    loose: [u16; SIDE],
}

/// Everything a check needs; nothing of it is trusted from one check to the next.
struct Workspace {
    symbols: usize,
    rules: usize,
    arity: [u8; CODES],
    /// 1 for what may become everything: variables and defined symbols.
    loose: [u8; CODES],
    defined: u64,
    code: [u8; NODES],
    slot: [u8; NODES],
    parent: [u16; NODES],
    cell: [u16; NODES],
    after: [u16; NODES],
    total: [u32; NODES],
    left: [u16; 65],
    right: [u16; 64],
    /// A bit for each variable that stands twice or more on the left.
    repeated: [u16; 64],
    /// A bit for each place of the right side that makes a pair.
    places: [u32; 64],
    seen: [u32; 64],
    /// The lowest component that holds a pair of the rule: an arc asks for the rule's left alone.
    lowest: [u16; 64],
    first_rule: [u8; 64],
    next_rule: [u8; 64],
    weights: [u32; CELLS],
    /// The records of the pairs that have not left yet, where a component has several weightings.
    present: [u64; PAIRS],
}

thread_local! {
    static WORKSPACE: RefCell<Box<Workspace>> = RefCell::new(Box::new(Workspace::new()));
}

/// 0 for accepted, else the number of the refusal.
pub fn check(pack: &[u8], certificate: &[u8]) -> u32 {
    if wrong_length(pack, 33_792) || wrong_length(certificate, 24_576) {
        return 1;
    }
    WORKSPACE.with_borrow_mut(|work| match work.judge(pack, certificate) {
        Ok(()) => 0,
        Err(number) => number,
    })
}

/// Fills the lent list; the number and the count.
pub fn list(pack: &[u8], list: &mut [u8]) -> (u32, u32) {
    if wrong_length(pack, 33_792) {
        return (1, 0);
    }
    WORKSPACE.with_borrow_mut(|work| match work.read_pack(pack) {
        Ok(()) => work.write_list(list),
        Err(number) => (number, 0),
    })
}

/// The number, and 1 for yes.
pub fn arc(pack: &[u8], question: [u32; 4]) -> (u32, u32) {
    if wrong_length(pack, 33_792) {
        return (1, 0);
    }
    WORKSPACE.with_borrow_mut(|work| match work.answer(pack, question) {
        Ok(yes) => (0, u32::from(yes)),
        Err(number) => (number, 0),
    })
}

fn wrong_length(file: &[u8], limit: usize) -> bool {
    file.len() > limit || !file.len().is_multiple_of(8)
}

/// A record as one number: kind, zero, a, b, c from the low end up.
#[inline(always)]
fn word(record: &[u8; 8]) -> u64 {
    u64::from_le_bytes(*record)
}

#[inline(always)]
fn a_of(word: u64) -> u16 {
    (word >> 16) as u16
}

#[inline(always)]
fn b_of(word: u64) -> u16 {
    (word >> 32) as u16
}

#[inline(always)]
fn c_of(word: u64) -> u16 {
    (word >> 48) as u16
}

/// (a, b) as one number, for rising.
#[inline(always)]
fn key(word: u64) -> i64 {
    i64::from(a_of(word)) << 16 | i64::from(b_of(word))
}

impl Workspace {
    fn new() -> Workspace {
        let mut work = Workspace {
            symbols: 0,
            rules: 0,
            arity: [0; CODES],
            loose: [0; CODES],
            defined: 0,
            code: [0; NODES],
            slot: [0; NODES],
            parent: [0; NODES],
            cell: [0; NODES],
            after: [0; NODES],
            total: [0; NODES],
            left: [0; 65],
            right: [0; 64],
            repeated: [0; 64],
            places: [0; 64],
            seen: [0; 64],
            lowest: [0; 64],
            first_rule: [0; 64],
            next_rule: [0; 64],
            weights: [0; CELLS],
            present: [0; PAIRS],
        };
        // A variable stands for 1 × itself, under the same reading as a symbol's constant.
        for code in VARIABLE..80 {
            work.weights[code * STEP] = 1;
            work.loose[code] = 1;
        }
        work
    }

    fn judge(&mut self, pack: &[u8], certificate: &[u8]) -> Result<(), u32> {
        self.read_pack(pack)?;
        let (records, _) = certificate.as_chunks::<8>();
        let twice = self.read_certificate(records)?;
        if twice || self.seen[..self.rules] != self.places[..self.rules] {
            return Err(8);
        }
        if self.has_back_arc(records) {
            return Err(9);
        }
        self.judge_components(records)
    }

    // ------------------------------------------------------------ the pack

    fn read_pack(&mut self, file: &[u8]) -> Result<(), u32> {
        let (records, _) = file.as_chunks::<8>();
        let mut at = self.read_symbols(records)?;
        if at == 0 && !records.is_empty() {
            return Err(2);
        }
        self.rules = 0;
        self.defined = 0;
        self.left[0] = 0;
        while at < records.len() {
            at = self.read_rule(records, at)?;
        }
        self.index_rules();
        Ok(())
    }

    fn read_symbols(&mut self, records: &[[u8; 8]]) -> Result<usize, u32> {
        let mut at = 0;
        while at < records.len() && records[at][0] == b'S' {
            let word = word(&records[at]);
            // Kind, byte 1, number and c in one comparison.
            if word & 0xFFFF_0000_FFFF_FFFF != u64::from(b'S') | (at as u64) << 16 {
                return Err(2);
            }
            if at >= 64 || b_of(word) > 8 {
                return Err(3);
            }
            self.arity[at] = b_of(word) as u8;
            at += 1;
        }
        self.symbols = at;
        Ok(at)
    }

    fn read_rule(&mut self, records: &[[u8; 8]], at: usize) -> Result<usize, u32> {
        let head = word(&records[at]);
        let rule = self.rules;
        if head & 0xFFFF_FFFF != u64::from(b'R') | (rule as u64) << 16 {
            return Err(2);
        }
        let (left, right) = (usize::from(b_of(head)), usize::from(c_of(head)));
        if rule >= 64 || left.wrapping_sub(1) >= 32 || right.wrapping_sub(1) >= 32 {
            return Err(3);
        }
        let start = usize::from(self.left[rule]);
        let (middle, end) = (start + left, start + left + right);
        let left_side = self.read_side(records, at + 1, start, middle)?;
        let right_side = self.read_side(records, at + 1 + left, middle, end)?;
        if !left_side.whole || !right_side.whole {
            return Err(4);
        }
        if usize::from(self.code[start]) >= VARIABLE {
            return Err(5);
        }
        if right_side.variables & !left_side.variables != 0 {
            return Err(6);
        }
        self.repeated[rule] = left_side.repeated;
        self.shape(start, middle);
        self.shape(middle, end);
        self.right[rule] = middle as u16;
        self.left[rule + 1] = end as u16;
        self.defined |= 1 << self.code[start];
        self.rules = rule + 1;
        Ok(at + 1 + left + right)
    }

    /// The codes of one side; answers what is known of it then.
    fn read_side(&mut self, records: &[[u8; 8]], at: usize, start: usize, end: usize) -> Result<Side, u32> {
        let nodes = records.get(at..).unwrap_or(&[]);
        let there = nodes.len().min(end - start);
        let limits = [self.symbols as u16, 16];
        let (mut variables, mut repeated) = (0u16, 0u16);
        // Terms still to come; a term that ends early sets the sign for good.
        let (mut open, mut early) = (1i32, 0i32);
        for (record, node) in nodes[..there].iter().zip(start..) {
            let word = word(record);
            let a = a_of(word);
            // F and V differ in one bit, so that no jump is needed between them.
            let variable = (word >> 4 & 1) as usize;
            if word & 0xFFFF_FFFF_0000_FFEF != u64::from(b'F') {
                return Err(2);
            }
            if a >= limits[variable] {
                return Err(3);
            }
            let code = usize::from(a) + variable * VARIABLE;
            let bit = (variable as u16) << (a & 15);
            repeated |= variables & bit;
            variables |= bit;
            self.code[node] = code as u8;
            self.slot[node] = if variable == 1 { a as u8 } else { CONSTANT as u8 };
            early |= open - 1;
            open += i32::from(self.arity[code & 127]) - 1;
        }
        if there < end - start {
            return Err(2);
        }
        Ok(Side { variables, repeated, whole: open == 0 && early >= 0 })
    }

    /// Ends, parents and weight cells of one side that is a term, from its last node to its first.
    fn shape(&mut self, start: usize, end: usize) {
        for node in (start..end).rev() {
            let code = usize::from(self.code[node & (NODES - 1)]);
            let mut next = node + 1;
            for place in 1..=usize::from(self.arity[code & 127]) {
                let argument = next & (NODES - 1);
                self.parent[argument] = node as u16;
                self.cell[argument] = (code * STEP + place) as u16;
                next = usize::from(self.after[argument]);
            }
            self.after[node & (NODES - 1)] = next as u16;
        }
        self.parent[start] = start as u16;
        self.cell[start] = NO_WEIGHT;
    }

    /// What needs all rules: loose symbols, pairs, rules by root.
    fn index_rules(&mut self) {
        for symbol in 0..64 {
            self.loose[symbol] = (self.defined >> symbol & 1) as u8;
            self.first_rule[symbol] = NO_RULE;
        }
        for rule in (0..self.rules).rev() {
            let root = usize::from(self.code[usize::from(self.left[rule])] & 63);
            self.next_rule[rule] = self.first_rule[root];
            self.first_rule[root] = rule as u8;
            self.places[rule] = self.pair_places(rule);
        }
    }

    fn pair_places(&self, rule: usize) -> u32 {
        let (start, end) = (usize::from(self.right[rule]), usize::from(self.left[rule + 1]));
        let mut places = 0;
        for (place, code) in self.code[start..end].iter().enumerate() {
            let pair = *code < VARIABLE as u8 && self.defined >> (code & 63) & 1 == 1;
            places |= u32::from(pair) << place;
        }
        places
    }

    // ------------------------------------------------------------ listing and arcs

    fn write_list(&self, list: &mut [u8]) -> (u32, u32) {
        let count: u32 = self.places[..self.rules].iter().map(|places| places.count_ones()).sum();
        if list.len() / 8 < count as usize {
            return (14, 0);
        }
        let mut records = list.chunks_exact_mut(8);
        for (rule, places) in self.places[..self.rules].iter().enumerate() {
            let mut rest = *places;
            while rest != 0 {
                let place = rest.trailing_zeros();
                rest &= rest - 1;
                if let Some(record) = records.next() {
                    let word = u64::from(b'P') | (rule as u64) << 16 | u64::from(place) << 32;
                    record.copy_from_slice(&word.to_le_bytes());
                }
            }
        }
        (0, count)
    }

    fn answer(&mut self, pack: &[u8], question: [u32; 4]) -> Result<bool, u32> {
        self.read_pack(pack)?;
        let [rule, place, other_rule, other_place] = question;
        if !self.is_pair(rule, place) || !self.is_pair(other_rule, other_place) {
            return Err(7);
        }
        let node = usize::from(self.right[rule as usize]) + place as usize;
        let left = usize::from(self.left[other_rule as usize]);
        Ok(self.code[node] == self.code[left] && self.connects(node, other_rule as usize))
    }

    #[inline(always)]
    fn is_pair(&self, rule: u32, place: u32) -> bool {
        (rule as usize) < self.rules && place < 32 && self.places[rule as usize] >> place & 1 == 1
    }

    /// An arc from that node to a pair of the rule; the roots are already known to be one symbol.
    #[inline(always)]
    fn connects(&self, right: usize, rule: usize) -> bool {
        let left = usize::from(self.left[rule]);
        self.arguments_meet(right, left) && (self.repeated[rule] == 0 || self.meetings_agree(right, rule))
    }

    /// Walks both sides at once.
    #[inline(always)]
    fn arguments_meet(&self, right: usize, left: usize) -> bool {
        let stop = usize::from(self.after[right & (NODES - 1)]);
        let (mut u, mut v) = (right + 1, left + 1);
        while u < stop {
            let (from, to) = (self.code[u & (NODES - 1)], self.code[v & (NODES - 1)]);
            if self.loose[usize::from(from & 127)] != 0 || usize::from(to) >= VARIABLE {
                u = usize::from(self.after[u & (NODES - 1)]);
                v = usize::from(self.after[v & (NODES - 1)]);
            } else if from == to {
                u += 1;
                v += 1;
            } else {
                return false;
            }
        }
        true
    }

    /// Walks them again, where the walk above comes to its end: do the subterms that each repeated variable meets agree?
    #[inline(never)]
    fn meetings_agree(&self, right: usize, rule: usize) -> bool {
        let mut values = Values { root: right, first: [NO_NODE; VARIABLES], loose: [NO_NODE; SIDE] };
        let stop = usize::from(self.after[right & (NODES - 1)]);
        let (mut u, mut v) = (right + 1, usize::from(self.left[rule]) + 1);
        while u < stop {
            let (from, to) = (self.code[u & (NODES - 1)], self.code[v & (NODES - 1)]);
            let loose = self.loose[usize::from(from & 127)] != 0;
            if !loose && usize::from(to) < VARIABLE {
                u += 1;
                v += 1;
                continue;
            }
            // What is loose agrees with all.
            let counts = !loose && self.repeated[rule] >> (to & 15) & 1 == 1;
            if counts && !self.agrees_with_first(usize::from(to & 15), u, &mut values) {
                return false;
            }
            u = usize::from(self.after[u & (NODES - 1)]);
            v = usize::from(self.after[v & (NODES - 1)]);
        }
        true
    }

    /// The first subterm that a variable meets is its value, with which the others must agree.
    #[inline(always)]
    fn agrees_with_first(&self, variable: usize, node: usize, values: &mut Values) -> bool {
        let first = values.first[variable];
        if first == NO_NODE {
            values.first[variable] = node as u16;
            return true;
        }
        self.agree(usize::from(first), node, values)
    }

    /// Walks both subterms; where the one is loose, the other's part is its value from then on. Each loose node stands
    /// once on the right, so that nothing can come to stand inside itself.
    fn agree(&self, one: usize, other: usize, values: &mut Values) -> bool {
        let stop = usize::from(self.after[other & (NODES - 1)]);
        let (mut u, mut v) = (one, other);
        while v < stop {
            let (from, to) = (self.code[u & (NODES - 1)], self.code[v & (NODES - 1)]);
            let loose = (self.loose[usize::from(from & 127)], self.loose[usize::from(to & 127)]);
            if loose == (0, 0) {
                if from != to {
                    return false;
                }
                u += 1;
                v += 1;
                continue;
            }
            if loose.1 == 0 && !self.agrees_with_value(u, v, values) {
                return false;
            }
            u = usize::from(self.after[u & (NODES - 1)]);
            v = usize::from(self.after[v & (NODES - 1)]);
        }
        true
    }

    /// The same for a loose node.
    fn agrees_with_value(&self, loose: usize, node: usize, values: &mut Values) -> bool {
        let at = (loose - values.root) & (SIDE - 1);
        let value = values.loose[at];
        if value == NO_NODE {
            values.loose[at] = node as u16;
            return true;
        }
        self.agree(usize::from(value), node, values)
    }

    // ------------------------------------------------------------ the certificate

    /// Reads it front to back; answers whether some pair stands twice.
    fn read_certificate(&mut self, records: &[[u8; 8]]) -> Result<bool, u32> {
        self.seen[..self.rules].fill(0);
        self.lowest[..self.rules].fill(u16::MAX);
        let (mut at, mut number, mut twice) = (0, 0u16, false);
        while at < records.len() {
            let head = word(&records[at]);
            if head & 0xFFFF_FFFF != u64::from(b'C') | u64::from(number) << 16 {
                return Err(2);
            }
            let (weightings, count) = (b_of(head), c_of(head));
            if weightings == 0 && count > 1 {
                return Err(2);
            }
            if weightings > WEIGHTINGS || usize::from(count.wrapping_sub(1)) >= PAIRS {
                return Err(3);
            }
            at += 1;
            twice |= self.read_pairs(records, at, usize::from(count), number)?;
            at += usize::from(count);
            for weighting in 0..weightings {
                at = read_weighting_head(records, at, weighting)?;
                at = self.read_weights(records, at, b'W', u64::MAX)?;
                at = self.read_weights(records, at, b'M', self.defined)?;
            }
            number += 1;
        }
        Ok(twice)
    }

    fn read_pairs(&mut self, records: &[[u8; 8]], at: usize, count: usize, number: u16) -> Result<bool, u32> {
        let mut last = -1;
        let mut twice = false;
        let there = count.min(records.len() - at);
        for record in &records[at..at + there] {
            let word = word(record);
            if word & 0xFFFF_0000_0000_FFFF != u64::from(b'P') || key(word) <= last {
                return Err(2);
            }
            last = key(word);
            let (rule, place) = (usize::from(a_of(word)), b_of(word));
            if !self.is_pair(rule as u32, u32::from(place)) {
                return Err(7);
            }
            let bit = 1u32 << place;
            twice |= self.seen[rule] & bit != 0;
            self.seen[rule] |= bit;
            // Components rise, so the first one met is the lowest.
            self.lowest[rule] = self.lowest[rule].min(number);
        }
        if there < count {
            return Err(2);
        }
        Ok(twice)
    }

    fn read_weights(&self, records: &[[u8; 8]], mut at: usize, kind: u8, allowed: u64) -> Result<usize, u32> {
        let mut last = -1;
        while at < records.len() && records[at][0] == kind {
            let word = word(&records[at]);
            if word & 0xFF00 != 0 || key(word) <= last {
                return Err(2);
            }
            last = key(word);
            let (symbol, place) = (usize::from(a_of(word)), b_of(word));
            if symbol >= self.symbols || place > u16::from(self.arity[symbol]) || allowed >> symbol & 1 == 0 {
                return Err(3);
            }
            at += 1;
        }
        Ok(at)
    }

    /// At most one question for each pair and each rule of its root symbol.
    fn has_back_arc(&self, records: &[[u8; 8]]) -> bool {
        let mut number = 0;
        for record in records {
            let word = word(record);
            match record[0] {
                b'C' => number = a_of(word),
                b'P' if number > 0 && self.leads_back(word, number) => return true,
                _ => {}
            }
        }
        false
    }

    #[inline(always)]
    fn leads_back(&self, word: u64, number: u16) -> bool {
        let node = self.pair_node(word);
        let mut rule = self.first_rule[usize::from(self.code[node] & 63)];
        while rule != NO_RULE {
            let other = usize::from(rule & 63);
            if self.lowest[other] < number && self.connects(node, other) {
                return true;
            }
            rule = self.next_rule[other];
        }
        false
    }

    #[inline(always)]
    fn pair_node(&self, word: u64) -> usize {
        (usize::from(self.right[usize::from(a_of(word) & 63)]) + usize::from(b_of(word))) & (NODES - 1)
    }

    // ------------------------------------------------------------ components

    fn judge_components(&mut self, records: &[[u8; 8]]) -> Result<(), u32> {
        let mut judged: Option<&[[u8; 8]]> = None;
        let mut at = 0;
        while at < records.len() {
            let head = word(&records[at]);
            let pairs_end = at + 1 + usize::from(c_of(head));
            let pairs = &records[at + 1..pairs_end];
            at = pairs_end;
            match b_of(head) {
                0 => self.judge_self_arc(word(&pairs[0]))?,
                1 => {
                    let rises = self.judge_rules(records, &mut at, &mut judged)?;
                    self.judge_only_weighting(pairs, rises)?;
                }
                weightings => at = self.judge_several(records, at, pairs, weightings, &mut judged)?,
            }
        }
        Ok(())
    }

    /// All weightings of one component; answers where it ends.
    #[inline(never)]
    fn judge_several<'a>(
        &mut self,
        records: &'a [[u8; 8]],
        mut at: usize,
        pairs: &[[u8; 8]],
        weightings: u16,
        judged: &mut Option<&'a [[u8; 8]]>,
    ) -> Result<usize, u32> {
        for (present, record) in self.present.iter_mut().zip(pairs) {
            *present = word(record);
        }
        let mut left = pairs.len();
        for weighting in 0..weightings {
            at += usize::from(weighting > 0);
            let rises = self.judge_rules(records, &mut at, judged)?;
            left = self.judge_weighting(left, rises, weighting + 1 == weightings)?;
        }
        Ok(at)
    }

    fn judge_self_arc(&self, word: u64) -> Result<(), u32> {
        let node = self.pair_node(word);
        let rule = usize::from(a_of(word) & 63);
        if self.code[node] == self.code[usize::from(self.left[rule])] && self.connects(node, rule) {
            return Err(10);
        }
        Ok(())
    }

    /// Loads the weights that stand here and goes behind them; answers whether a rule rises.
    #[inline(always)]
    fn judge_rules<'a>(
        &mut self,
        records: &'a [[u8; 8]],
        at: &mut usize,
        judged: &mut Option<&'a [[u8; 8]]>,
    ) -> Result<bool, u32> {
        let plain = run_of(&records[*at..], b'W');
        *at += plain.len();
        let marked = run_of(&records[*at..], b'M');
        *at += marked.len();
        self.load(marked, MARKED);
        // The rules were judged under these very weights and passed.
        if judged.replace(plain) == Some(plain) {
            return Ok(false);
        }
        self.load(plain, 0);
        let mut rises = false;
        for rule in 0..self.rules {
            rises |= self.judge_rule(rule)?;
        }
        Ok(rises)
    }

    #[inline(always)]
    fn judge_only_weighting(&self, pairs: &[[u8; 8]], rises: bool) -> Result<(), u32> {
        let stays = self.judge_pairs(pairs)?;
        if rises {
            return Err(12);
        }
        if stays {
            return Err(13);
        }
        Ok(())
    }

    /// One weighting of several over the first `count` of the list; answers how many remain there.
    fn judge_weighting(&mut self, count: usize, rises: bool, last: bool) -> Result<usize, u32> {
        let mut left = Left::NONE;
        let mut pair_rises = false;
        let mut remaining = 0;
        for index in 0..count {
            let word = self.present[index];
            let difference = self.difference(word, &mut left)?;
            pair_rises |= any_below_zero(&difference);
            // A place that is not behind the one just read.
            self.present[remaining] = word;
            remaining += usize::from(difference[CONSTANT] <= 0);
        }
        if rises {
            return Err(12);
        }
        if pair_rises || last && remaining > 0 {
            return Err(13);
        }
        if remaining == count {
            return Err(17);
        }
        Ok(remaining)
    }

    fn load(&mut self, records: &[[u8; 8]], base: usize) {
        self.weights[base..base + self.symbols * STEP].fill(0);
        for record in records {
            let word = word(record);
            let cell = usize::from(a_of(word) & 63) * STEP + usize::from(b_of(word) & 15);
            self.weights[base + cell] = u32::from(c_of(word));
        }
    }

    /// Err(11) if a node passes the limit, else whether the rule rises.
    fn judge_rule(&mut self, rule: usize) -> Result<bool, u32> {
        let (start, end) = (usize::from(self.left[rule]), usize::from(self.left[rule + 1]));
        let middle = usize::from(self.right[rule]);
        self.bound_nodes(start, end)?;
        let mut difference = [0; SLOTS];
        self.add_form(start, 0, 1, &mut difference);
        self.add_form(middle, 0, -1, &mut difference);
        Ok(any_below_zero(&difference))
    }

    /// Every node's value where all variables are 1, cut off at the limit.
    fn bound_nodes(&mut self, start: usize, end: usize) -> Result<(), u32> {
        let mut sums = [0u64; 64];
        for node in (start..end).rev() {
            let own = u64::from(self.weights[usize::from(self.code[node]) * STEP]);
            let mut total = sums[(node - start) & 63] + own;
            if total >= LIMIT {
                if self.passes_limit(node, 0) {
                    return Err(11);
                }
                total = LIMIT;
            }
            self.total[node] = total as u32;
            let parent = usize::from(self.parent[node]) - start;
            sums[parent & 63] += u64::from(self.weights[usize::from(self.cell[node])]) * total;
        }
        Ok(())
    }

    /// The form itself, where the bound does not settle it; the arguments are known to be within the limit.
    #[cold]
    fn passes_limit(&self, node: usize, base: usize) -> bool {
        let mut form = [0; SLOTS];
        self.add_form(node, base, 1, &mut form);
        form.iter().any(|value| *value as u64 > LIMIT)
    }

    /// Adds sign × the form of the subterm; numbers wrap on the way, but the sum is exact as it is small.
    #[inline(always)]
    fn add_form(&self, root: usize, base: usize, sign: i64, form: &mut Form) {
        let mut factors = [0i64; 32];
        factors[0] = sign;
        let code = usize::from(self.code[root & (NODES - 1)]);
        let slot = usize::from(self.slot[root & (NODES - 1)]);
        form[slot.min(CONSTANT)] += sign * i64::from(self.weights[base + code * STEP]);
        let end = usize::from(self.after[root & (NODES - 1)]);
        let mut node = root + 1;
        while node < end {
            let here = node & (NODES - 1);
            let parent = usize::from(self.parent[here]) - root;
            let shift = if parent == 0 { base } else { 0 };
            let weight = self.weights[usize::from(self.cell[here]) + shift];
            let factor = factors[parent & 31].wrapping_mul(i64::from(weight));
            if factor == 0 {
                node = usize::from(self.after[here]);
                continue;
            }
            factors[(node - root) & 31] = factor;
            let own = i64::from(self.weights[usize::from(self.code[here]) * STEP]);
            let slot = usize::from(self.slot[here]).min(CONSTANT);
            form[slot] = form[slot].wrapping_add(factor.wrapping_mul(own));
            node += 1;
        }
    }

    /// Err(11) if a marked root passes the limit, else whether some pair stays.
    fn judge_pairs(&self, pairs: &[[u8; 8]]) -> Result<bool, u32> {
        let mut stays = false;
        let mut left = Left::NONE;
        for record in pairs {
            let difference = self.difference(word(record), &mut left)?;
            stays |= any_below_zero(&difference) || difference[CONSTANT] == 0;
        }
        Ok(stays)
    }

    /// The pair's left less its right, or Err(11) if a marked root passes the limit.
    #[inline(always)]
    fn difference(&self, word: u64, left: &mut Left) -> Result<Form, u32> {
        let rule = usize::from(a_of(word));
        if rule != left.rule {
            *left = Left { rule, ..Left::NONE };
            let root = usize::from(self.left[rule & 63]);
            self.bound_marked(root)?;
            self.add_form(root, MARKED, 1, &mut left.form);
        }
        let node = self.pair_node(word);
        self.bound_marked(node)?;
        let mut difference = left.form;
        self.add_form(node, MARKED, -1, &mut difference);
        Ok(difference)
    }

    /// The limit for a marked root, over its arguments' bounds.
    fn bound_marked(&self, root: usize) -> Result<(), u32> {
        let code = usize::from(self.code[root] & 63);
        let cells = &self.weights[MARKED + code * STEP..MARKED + (code + 1) * STEP];
        let mut total = u64::from(cells[0]);
        let mut argument = root + 1;
        for place in 1..=usize::from(self.arity[code]) {
            let here = argument & (NODES - 1);
            total += u64::from(cells[place & 15]) * u64::from(self.total[here]);
            argument = usize::from(self.after[here]);
        }
        if total >= LIMIT && self.passes_limit(root, MARKED) {
            return Err(11);
        }
        Ok(())
    }
}

#[inline(always)]
fn any_below_zero(form: &Form) -> bool {
    form.iter().fold(0, |signs, value| signs | value) < 0
}

/// The L of the second and later weightings; the first has none.
#[inline(always)]
fn read_weighting_head(records: &[[u8; 8]], at: usize, weighting: u16) -> Result<usize, u32> {
    if weighting == 0 {
        return Ok(at);
    }
    let wanted = u64::from(b'L') | u64::from(weighting) << 16;
    if records.get(at).is_some_and(|record| word(record) == wanted) {
        Ok(at + 1)
    } else {
        Err(2)
    }
}

/// The records of one kind at the front.
fn run_of(records: &[[u8; 8]], kind: u8) -> &[[u8; 8]] {
    let count = records.iter().take_while(|record| record[0] == kind).count();
    &records[..count]
}
