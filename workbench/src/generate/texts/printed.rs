//! The words of a text, and how they may be printed.

use crate::checker::{Rule, Term};
use crate::random::Random;
use crate::slow_texts::NAME_BYTES;
use crate::solver_text::NAME_LIMIT;
use std::collections::HashSet;

/// Names and signs, in their order.
pub struct Words(pub Vec<String>);

impl Words {
    /// Blanks by chance between them, at least one between two names.
    pub fn text(&self, random: &mut Random) -> Vec<u8> {
        let style = *random.pick(&[Style::Tight, Style::Usual, Style::Usual, Style::Odd]);
        let mut text = Vec::new();
        style.blanks(random, &mut text);
        let mut name_before = false;
        for word in &self.0 {
            if name_before && is_name(word) {
                text.push(*random.pick(BLANKS));
            }
            style.blanks(random, &mut text);
            text.extend(word.bytes());
            name_before = is_name(word);
        }
        style.blanks(random, &mut text);
        text
    }
}

/// A word that would run together with a name beside it.
pub fn is_name(word: &str) -> bool {
    word.bytes().all(|byte| byte.is_ascii_alphanumeric() || byte == b'_' || byte == b'\'')
}

const BLANKS: &[u8] = b" \t\n\r";

/// How many blanks there are.
#[derive(Clone, Copy)]
enum Style {
    Tight,
    Usual,
    Odd,
}

impl Style {
    fn blanks(self, random: &mut Random, text: &mut Vec<u8>) {
        let count = match self {
            Style::Tight => 0,
            Style::Usual => random.below(2),
            Style::Odd => *random.pick(&[0, 0, 0, 1, 1, 2, 5]),
        };
        for _ in 0..count {
            text.push(if matches!(self, Style::Odd) { *random.pick(BLANKS) } else { b' ' });
        }
    }
}

// ---------------------------------------------------------------- names

/// Names that could be taken for something else.
const ODD_NAMES: [&str; 12] = ["VAR", "RULES", "var", "rules", "VARx", "VAR'", "0", "'", "_", "COMMENT", "x", "X"];

/// So many names, all different; in some texts they are long, or differ only at their ends.
pub fn names(random: &mut Random, count: usize) -> Vec<String> {
    let long = random.chance(10);
    let stem = if random.chance(8) { letters(random, 1, NAME_LIMIT - 3) } else { String::new() };
    let (mut names, mut seen) = (Vec::new(), HashSet::new());
    while names.len() < count {
        let name = if stem.is_empty() { name(random, long) } else { stem.clone() + &letters(random, 0, 3) };
        if seen.insert(name.clone()) {
            names.push(name);
        }
    }
    names
}

fn name(random: &mut Random, long: bool) -> String {
    match random.below(20) {
        0 => random.pick(&ODD_NAMES).to_string(),
        1 => alike(random),
        _ if long => letters(random, 1, NAME_LIMIT),
        2..=15 => letters(random, 1, 3),
        _ => letters(random, 1, 8),
    }
}

/// A name with a length from `least` to `most`.
fn letters(random: &mut Random, least: usize, most: usize) -> String {
    (0..random.range(least, most)).map(|_| char::from(*random.pick(NAME_BYTES))).collect()
}

/// Names that differ late or early, or in their length alone.
fn alike(random: &mut Random) -> String {
    let mut name = vec![b'a'; *random.pick(&[1, 2, 7, 8, 9, 15, 16, 17, 23, 24])];
    let at = *random.pick(&[0, name.len() - 1]);
    name[at] = *random.pick(b"ab");
    String::from_utf8_lossy(&name).into_owned()
}

// ---------------------------------------------------------------- rules

/// A text of these rules; the numbers of their symbols and variables only tell them apart.
pub fn words_of(random: &mut Random, arities: &[u16], rules: &[Rule]) -> Words {
    let extra = *random.pick(&[0, 0, 0, 1, 5]);
    let mut variables = names(random, arities.len() + 16 + extra);
    let symbols = variables.split_off(16 + extra);
    let mut words = Vec::new();
    for rule in rules {
        // The same variable may have another name in another rule.
        let shift = *random.pick(&[0, 0, 1, 7]);
        let naming = Naming { symbols: &symbols, variables: &variables, shift };
        naming.term(random, &rule.left, &mut words);
        words.push("->".to_string());
        naming.term(random, &rule.right, &mut words);
    }
    framed(declared(random, variables, &words), words)
}

/// `(VAR` names `)` `(RULES` rules `)`
pub fn framed(variables: Vec<String>, rules: Vec<String>) -> Words {
    let signs = |signs: [&str; 2]| signs.map(str::to_string);
    let mut words = signs(["(", "VAR"]).to_vec();
    words.extend(variables);
    words.push(")".to_string());
    words.extend(signs(["(", "RULES"]));
    words.extend(rules);
    words.push(")".to_string());
    Words(words)
}

/// The names of the VAR section: those in use or all, some of them twice, rarely one of them not at all.
fn declared(random: &mut Random, mut variables: Vec<String>, rules: &[String]) -> Vec<String> {
    if random.chance(70) {
        variables.retain(|name| rules.contains(name));
    }
    random.shuffle(&mut variables);
    if random.chance(20) && !variables.is_empty() {
        let again = random.pick(&variables).clone();
        variables.insert(random.below(variables.len() + 1), again);
    }
    if random.chance(5) {
        variables.pop();
    }
    variables
}

/// The names of symbols and variables in one rule.
struct Naming<'a> {
    symbols: &'a [String],
    variables: &'a [String],
    shift: usize,
}

impl Naming<'_> {
    fn term(&self, random: &mut Random, term: &Term, words: &mut Vec<String>) {
        match term {
            Term::Variable(number) => {
                words.push(self.variables[(usize::from(*number) + self.shift) % self.variables.len()].clone());
            }
            Term::Apply(symbol, arguments) => {
                words.push(self.symbols[usize::from(*symbol)].clone());
                self.arguments(random, arguments, words);
            }
        }
    }

    /// `a()` for `a` at times.
    fn arguments(&self, random: &mut Random, arguments: &[Term], words: &mut Vec<String>) {
        if arguments.is_empty() && random.chance(70) {
            return;
        }
        words.push("(".to_string());
        for (index, argument) in arguments.iter().enumerate() {
            if index > 0 {
                words.push(",".to_string());
            }
            self.term(random, argument, words);
        }
        words.push(")".to_string());
    }
}
