//! Texts at each limit of a pack, and one past it.

use super::printed::{framed, names, Words};
use crate::checker::{ARITY_LIMIT, NODE_LIMIT, RULE_LIMIT, SYMBOL_LIMIT, VARIABLE_LIMIT};
use crate::random::Random;
use crate::slow_texts::NAME_BYTES;
use crate::solver_text::NAME_LIMIT;

/// What is counted.
#[derive(Clone, Copy)]
enum Edge {
    Symbols,
    Rules,
    Nodes,
    Arguments,
    Variables,
    NameLength,
    Arities,
}

/// A text that is just good.
pub fn at_limit(random: &mut Random) -> Words {
    use Edge::*;
    // Nodes and variables have the most ways to be met; many symbols and rules take long.
    let edge =
        *random.pick(&[Symbols, Rules, Nodes, Nodes, Nodes, Arguments, Variables, Variables, NameLength, Arities]);
    at_edge(random, edge, 0)
}

/// A text with one more, for 16.
pub fn over_limit(random: &mut Random) -> Words {
    use Edge::*;
    let edge = *random.pick(&[Symbols, Rules, Nodes, Nodes, Nodes, Arguments, Variables, Variables, Arities, Arities]);
    at_edge(random, edge, 1)
}

/// A name of one character more is outside the grammar, for 15.
pub fn over_long_name(random: &mut Random) -> Words {
    at_edge(random, Edge::NameLength, 1)
}

fn at_edge(random: &mut Random, edge: Edge, over: usize) -> Words {
    match edge {
        Edge::Symbols => symbols(random, SYMBOL_LIMIT + over),
        Edge::Rules => rules(random, RULE_LIMIT + over),
        Edge::Nodes => nodes(random, usize::from(NODE_LIMIT) + over),
        Edge::Arguments => arguments(random, usize::from(ARITY_LIMIT) + over),
        Edge::Variables => variables(random, usize::from(VARIABLE_LIMIT) + 1 + over),
        Edge::NameLength => name_length(random, NAME_LIMIT + over),
        Edge::Arities => arities(random, over > 0),
    }
}

// ---------------------------------------------------------------- words

fn word(word: &str) -> String {
    word.to_string()
}

/// `name(argument, ..)`, each argument already words.
fn applied(name: &str, arguments: &[Vec<String>]) -> Vec<String> {
    let mut words = vec![word(name), word("(")];
    words.extend(arguments.join(&word(",")));
    words.push(word(")"));
    words
}

fn rule(left: Vec<String>, right: Vec<String>) -> Vec<String> {
    [left, vec![word("->")], right].concat()
}

/// The rule somewhere among others that are good, so that a refusal comes early or late.
fn among_others(random: &mut Random, mut rule_words: Vec<String>) -> Vec<String> {
    let other = || rule(vec![word("other")], vec![word("other")]);
    for _ in 0..random.below(3) {
        rule_words = if random.chance(50) { [other(), rule_words].concat() } else { [rule_words, other()].concat() };
    }
    rule_words
}

// ---------------------------------------------------------------- counts

/// So many symbols, some with lists, appearing two a rule; then some of them again.
fn symbols(random: &mut Random, count: usize) -> Words {
    let names = names(random, count);
    let constant = |random: &mut Random, name: &str| {
        if random.chance(20) {
            vec![word(name), word("("), word(")")]
        } else {
            vec![word(name)]
        }
    };
    let mut words = Vec::new();
    for pair in names.chunks(2) {
        let (left, right) = (constant(random, &pair[0]), constant(random, &pair[pair.len() - 1]));
        words.extend(rule(left, right));
    }
    for _ in 0..random.below(4) {
        words.extend(rule(vec![random.pick(&names).clone()], vec![random.pick(&names).clone()]));
    }
    framed(Vec::new(), words)
}

fn rules(random: &mut Random, count: usize) -> Words {
    let names = names(random, 3);
    let one = |random: &mut Random| rule(vec![random.pick(&names).clone()], vec![random.pick(&names).clone()]);
    let words = (0..count).flat_map(|_| one(random)).collect();
    framed(names[..random.below(2)].to_vec(), words)
}

/// One side has so many nodes, the other fewer or as many.
fn nodes(random: &mut Random, count: usize) -> Words {
    let wide = *random.pick(&[1, 1, 2, 3, 8]);
    let other = *random.pick(&[1, 2, usize::from(NODE_LIMIT)]);
    let (many, few) = (side(random, count, wide), side(random, other, wide));
    let words = if random.chance(50) { rule(many, few) } else { rule(few, many) };
    framed(vec![word("x")], among_others(random, words))
}

/// A term of so many nodes, at most so wide; `f3` has three arguments.
fn side(random: &mut Random, nodes: usize, wide: usize) -> Vec<String> {
    if nodes == 1 {
        return vec![word(random.pick::<&str>(&["x", "c"]))];
    }
    let count = random.range(1, wide.min(nodes - 1));
    // Each argument has one node, and the others are dealt out.
    let mut shares = vec![1; count];
    for _ in 0..nodes - 1 - count {
        // One argument takes most, so that some sides are deep.
        let at = if random.chance(70) { count - 1 } else { random.below(count) };
        shares[at] += 1;
    }
    let arguments: Vec<Vec<String>> = shares.into_iter().map(|share| side(random, share, wide)).collect();
    applied(&format!("f{count}"), &arguments)
}

fn arguments(random: &mut Random, count: usize) -> Words {
    let list: Vec<Vec<String>> = (0..count).map(|_| vec![word(random.pick::<&str>(&["x", "a"]))]).collect();
    let (many, few) = (applied("f", &list), vec![word("a")]);
    let words = match random.below(3) {
        0 => rule(many, few),
        1 => rule(few, many),
        _ => rule(applied("g", std::slice::from_ref(&many)), many),
    };
    framed(vec![word("x")], among_others(random, words))
}

/// So many variables in one rule, on one side or on both; other rules have others.
fn variables(random: &mut Random, count: usize) -> Words {
    let names = names(random, count + 1);
    let (symbol, names) = (&names[0], &names[1..]);
    let sum = |names: &[String]| {
        let leaf = |name: &String| vec![name.clone()];
        names[1..].iter().fold(leaf(&names[0]), |sum, name| applied(symbol, &[sum, leaf(name)]))
    };
    // Sixteen of them make 31 nodes, so no side has too many.
    let cut = random.range(1, count - 1);
    let words = rule(sum(&names[..cut]), sum(&names[cut..]));
    let again = rule(vec![names[0].clone()], vec![names[count - 1].clone()]);
    let words = if random.chance(50) { [words, again].concat() } else { words };
    framed(names.to_vec(), words)
}

/// A name of that length as a variable, a symbol, or both that differ in the last byte.
fn name_length(random: &mut Random, length: usize) -> Words {
    let mut name: String = (1..length).map(|_| char::from(*random.pick(NAME_BYTES))).collect();
    let other = format!("{name}b");
    name.push('a');
    let (variables, words) = match random.below(4) {
        0 => (vec![name.clone()], rule(applied("f", &[vec![name.clone()]]), vec![name])),
        1 => (Vec::new(), rule(vec![name.clone()], vec![name])),
        2 => (vec![name.clone()], rule(applied(&other, &[vec![name.clone()]]), vec![name])),
        _ => (vec![name], Vec::new()),
    };
    framed(variables, words)
}

/// One name with two counts of arguments, or with one count in two spellings.
fn arities(random: &mut Random, differ: bool) -> Words {
    let counts = [0, 0, 1, 2, 3, 7, 8];
    let one = *random.pick(&counts);
    let others: Vec<usize> = counts.into_iter().filter(|count| *count != one).collect();
    let other = if differ { *random.pick(&others) } else { one };
    let term = |random: &mut Random, count: usize| match count {
        0 if random.chance(50) => vec![word("f")],
        0 => vec![word("f"), word("("), word(")")],
        _ => applied("f", &vec![vec![word("x")]; count]),
    };
    let (first, second) = (term(random, one), term(random, other));
    let words = match random.below(4) {
        0 => rule(first, second),
        1 => [rule(first, vec![word("a")]), rule(vec![word("a")], second)].concat(),
        2 => rule(applied("g", &[first, second]), vec![word("a")]),
        _ => rule(vec![word("a")], applied("g", &[first, second])),
    };
    framed(vec![word("x")], among_others(random, words))
}
