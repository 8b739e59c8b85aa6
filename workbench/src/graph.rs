//! The arc graph of a pack and its strongly connected groups, for those who look for certificates.

use crate::checker::{connectable, pair_left, pair_right, pairs, Pack, Pair};
use crate::random::Random;

pub struct Graph {
    pub pairs: Vec<Pair>,
    /// For each pair the rules to whose left its right is connectable; an arc asks for nothing else of the other pair.
    pub rules: Vec<Vec<u16>>,
}

/// All arcs of a pack.
pub fn graph(pack: &Pack) -> Graph {
    let pairs = pairs(pack);
    let rules = pairs.iter().map(|pair| met_rules(pack, *pair)).collect();
    Graph { pairs, rules }
}

fn met_rules(pack: &Pack, pair: Pair) -> Vec<u16> {
    let right = pair_right(pack, pair);
    let numbers = 0..pack.rules.len() as u16;
    numbers.filter(|rule| connectable(pack, right, pair_left(pack, (*rule, 0)))).collect()
}

impl Graph {
    /// Does an arc run from this pair to itself?
    pub fn has_self_arc(&self, index: usize) -> bool {
        self.rules[index].contains(&self.pairs[index].0)
    }

    /// Pairs that reach each other, as groups of indices; no arc leads to an earlier group.
    pub fn groups(&self, random: &mut Random) -> Vec<Vec<usize>> {
        let mut search = Search::new(self);
        let mut order: Vec<usize> = (0..self.pairs.len()).collect();
        random.shuffle(&mut order);
        for start in order {
            search.visit_from(start);
        }
        search.groups.reverse();
        search.groups
    }

    /// The same groups in another allowed order, with those of one class together as far as may be.
    pub fn by_class(&self, groups: Vec<Vec<usize>>, class: impl Fn(&[usize]) -> bool) -> Vec<Vec<usize>> {
        let met: Vec<Vec<u16>> = groups.iter().map(|group| self.met_by(group)).collect();
        let mut meeting = vec![0usize; 1 + usize::from(u16::MAX)];
        met.iter().flatten().for_each(|rule| meeting[usize::from(*rule)] += 1);
        let mut waiting: Vec<usize> = (0..groups.len()).collect();
        let mut order = Vec::new();
        let mut wanted = false;
        while !waiting.is_empty() {
            // Free is a group whose rules no other waiting group meets.
            let free = |index: &usize| {
                let mut own = groups[*index].iter().map(|pair| self.pairs[*pair].0);
                own.all(|rule| meeting[usize::from(rule)] <= usize::from(met[*index].contains(&rule)))
            };
            let of_class = waiting.iter().position(|index| class(&groups[*index]) == wanted && free(index));
            let Some(at) = of_class.or_else(|| waiting.iter().position(free)) else {
                break;
            };
            let index = waiting.remove(at);
            wanted = class(&groups[index]);
            met[index].iter().for_each(|rule| meeting[usize::from(*rule)] -= 1);
            order.push(index);
        }
        order.extend(waiting);
        order.into_iter().map(|index| groups[index].clone()).collect()
    }

    fn met_by(&self, group: &[usize]) -> Vec<u16> {
        let mut rules: Vec<u16> = group.iter().flat_map(|pair| self.rules[*pair].iter().copied()).collect();
        rules.sort_unstable();
        rules.dedup();
        rules
    }

    /// The indices of the pairs an arc leads to.
    fn next(&self, index: usize) -> Vec<usize> {
        let met = &self.rules[index];
        (0..self.pairs.len()).filter(|other| met.contains(&self.pairs[*other].0)).collect()
    }
}

/// Tarjan's search. A rule stands between the pairs that meet it and its own pairs, so that edges stay few.
struct Search<'a> {
    graph: &'a Graph,
    of_rule: Vec<Vec<usize>>,
    clock: usize,
    entered: Vec<usize>,
    low: Vec<usize>,
    on_stack: Vec<bool>,
    stack: Vec<usize>,
    groups: Vec<Vec<usize>>,
}

const NEW: usize = usize::MAX;

impl<'a> Search<'a> {
    fn new(graph: &'a Graph) -> Search<'a> {
        let mut of_rule =
            vec![Vec::new(); 65_536.min(1 + graph.pairs.iter().map(|p| usize::from(p.0)).max().unwrap_or(0))];
        for (index, pair) in graph.pairs.iter().enumerate() {
            of_rule[usize::from(pair.0)].push(index);
        }
        let nodes = graph.pairs.len() + of_rule.len();
        Search {
            graph,
            of_rule,
            clock: 0,
            entered: vec![NEW; nodes],
            low: vec![0; nodes],
            on_stack: vec![false; nodes],
            stack: Vec::new(),
            groups: Vec::new(),
        }
    }

    fn neighbours(&self, node: usize) -> Vec<usize> {
        let count = self.graph.pairs.len();
        if node < count {
            let rules = self.graph.rules[node].iter().map(|rule| usize::from(*rule));
            rules.filter(|rule| *rule < self.of_rule.len()).map(|rule| count + rule).collect()
        } else {
            self.of_rule[node - count].clone()
        }
    }

    fn enter(&mut self, node: usize) -> (usize, Vec<usize>, usize) {
        self.entered[node] = self.clock;
        self.low[node] = self.clock;
        self.clock += 1;
        self.stack.push(node);
        self.on_stack[node] = true;
        (node, self.neighbours(node), 0)
    }

    /// Depth first, with a stack of its own.
    fn visit_from(&mut self, start: usize) {
        if self.entered[start] != NEW {
            return;
        }
        let mut path = vec![self.enter(start)];
        while let Some((node, neighbours, next)) = path.last_mut() {
            let node = *node;
            if *next < neighbours.len() {
                let other = neighbours[*next];
                *next += 1;
                if self.entered[other] == NEW {
                    let entry = self.enter(other);
                    path.push(entry);
                } else if self.on_stack[other] {
                    self.low[node] = self.low[node].min(self.entered[other]);
                }
            } else {
                path.pop();
                if let Some((parent, _, _)) = path.last() {
                    self.low[*parent] = self.low[*parent].min(self.low[node]);
                }
                self.leave(node);
            }
        }
    }

    /// Closes a group when its first node is left; rule nodes are dropped from it.
    fn leave(&mut self, node: usize) {
        if self.low[node] != self.entered[node] {
            return;
        }
        let mut group = Vec::new();
        while let Some(other) = self.stack.pop() {
            self.on_stack[other] = false;
            if other < self.graph.pairs.len() {
                group.push(other);
            }
            if other == node {
                break;
            }
        }
        if !group.is_empty() {
            group.sort_unstable();
            self.groups.push(group);
        }
    }
}

/// Do all arcs between groups lead forward? For tests of the search above.
pub fn is_ordered(graph: &Graph, groups: &[Vec<usize>]) -> bool {
    let mut group_of = vec![0; graph.pairs.len()];
    for (number, group) in groups.iter().enumerate() {
        for index in group {
            group_of[*index] = number;
        }
    }
    (0..graph.pairs.len()).all(|from| graph.next(from).iter().all(|to| group_of[from] <= group_of[*to]))
}
