//! A plain reader of the solvers' text, written from document 02's paragraph N1 alone.
//!
//! Tokens, then lists of nodes, then the pack; each function cites the sentence it stands for.
//! Nothing calls itself, since a hostile text nests as deep as it is long.

use crate::checker::{demand, ARITY_LIMIT, NODE_LIMIT, RULE_LIMIT, SHORT_LIST, SYMBOL_LIMIT, VARIABLE_LIMIT};
use crate::encode::record;
use std::collections::{HashMap, HashSet};

/// "over 32,768 bytes"
pub const TEXT_LIMIT: usize = 32_768;
/// "Names have 1 to 24 ASCII letters, digits, underscores or apostrophes"
pub const NAME_LIMIT: usize = 24;

/// "14 for a short buffer"
pub const SHORT_BUFFER: u32 = SHORT_LIST;
/// "15 for text outside the grammar or over 32,768 bytes"
pub const OUTSIDE_GRAMMAR: u32 = 15;
/// "16 for a name used with two arities or a count over 01's limits, a 17th variable in a rule too"
pub const OVER_LIMITS: u32 = 16;

/// A pack, and what its symbols are called: names with arities, in the order of their numbers.
pub struct NamedPack {
    pub symbols: Vec<(String, u16)>,
    pub bytes: Vec<u8>,
}

/// The pack of a text, or the number of the refusal: "15 .., then 16 .., then 14".
pub fn read_text(text: &[u8], room: usize) -> Result<Vec<u8>, u32> {
    let pack = read_named(text)?.bytes;
    demand(pack.len() <= room, SHORT_BUFFER)?;
    Ok(pack)
}

/// The pack whatever its length, with the names that the text gives its symbols.
pub fn read_named(text: &[u8]) -> Result<NamedPack, u32> {
    let system = read_system(text)?;
    let mut numbers = Numbers::default();
    let rules = rule_records(&system, &mut numbers)?;
    let mut bytes = numbers.symbol_records();
    bytes.extend(rules);
    Ok(NamedPack { symbols: numbers.named_symbols(), bytes })
}

// ---------------------------------------------------------------- tokens

type Name<'t> = &'t [u8];

#[derive(Clone, Copy, Debug, PartialEq, Eq)]
enum Token<'t> {
    Name(Name<'t>),
    Open,
    Close,
    Comma,
    Arrow,
}

/// "ASCII letters, digits, underscores or apostrophes"
fn is_of_name(byte: u8) -> bool {
    byte.is_ascii_alphanumeric() || byte == b'_' || byte == b'\''
}

/// "spaces, tabs and line ends (bytes 10, 13)"
fn is_blank(byte: u8) -> bool {
    [32, 9, 10, 13].contains(&byte)
}

/// Blanks "may stand anywhere but inside a name or `->`"
fn tokens(text: &[u8]) -> Result<Vec<Token<'_>>, u32> {
    let mut tokens = Vec::new();
    let mut at = 0;
    while at < text.len() {
        if is_blank(text[at]) {
            at += 1;
            continue;
        }
        let (token, length) = first_token(&text[at..])?;
        tokens.push(token);
        at += length;
    }
    Ok(tokens)
}

/// The token that a text starts with, and its length.
fn first_token(text: &[u8]) -> Result<(Token<'_>, usize), u32> {
    match text {
        [b'(', ..] => Ok((Token::Open, 1)),
        [b')', ..] => Ok((Token::Close, 1)),
        [b',', ..] => Ok((Token::Comma, 1)),
        [b'-', b'>', ..] => Ok((Token::Arrow, 2)),
        _ => first_name(text).map(|name| (Token::Name(name), name.len())),
    }
}

/// "1 to 24 .., as many as stand together"
fn first_name(text: &[u8]) -> Result<Name<'_>, u32> {
    let length = text.iter().take_while(|byte| is_of_name(**byte)).count();
    demand((1..=NAME_LIMIT).contains(&length), OUTSIDE_GRAMMAR)?;
    Ok(&text[..length])
}

// ---------------------------------------------------------------- the grammar

/// A name with the count of its arguments; `listed` if parentheses follow, empty ones too.
#[derive(Clone, Copy)]
struct Node<'t> {
    name: Name<'t>,
    listed: bool,
    arguments: usize,
}

/// The nodes of both sides in prefix order.
struct Rule<'t> {
    left: Vec<Node<'t>>,
    right: Vec<Node<'t>>,
}

struct System<'t> {
    variables: HashSet<Name<'t>>,
    rules: Vec<Rule<'t>>,
}

/// "15 for text outside the grammar or over 32,768 bytes"
fn read_system(text: &[u8]) -> Result<System<'_>, u32> {
    demand(text.len() <= TEXT_LIMIT, OUTSIDE_GRAMMAR)?;
    let system = Reader { tokens: tokens(text)?, at: 0 }.system()?;
    let nodes = || system.rules.iter().flat_map(|rule| rule.left.iter().chain(&rule.right));
    // "A variable takes no argument list, not even `()`"
    demand(!nodes().any(|node| node.listed && system.variables.contains(node.name)), OUTSIDE_GRAMMAR)?;
    Ok(system)
}

/// The tokens and how far they are read.
struct Reader<'t> {
    tokens: Vec<Token<'t>>,
    at: usize,
}

impl<'t> Reader<'t> {
    fn peek(&self) -> Option<Token<'t>> {
        self.tokens.get(self.at).copied()
    }

    /// Passes over the token if it is the next one.
    fn eat(&mut self, token: Token) -> bool {
        let is_next = self.peek() == Some(token);
        self.at += usize::from(is_next);
        is_next
    }

    fn want(&mut self, token: Token) -> Result<(), u32> {
        demand(self.eat(token), OUTSIDE_GRAMMAR)
    }

    /// "VAR and RULES are read as names are": words in these two places alone.
    fn section(&mut self, word: &str) -> Result<(), u32> {
        self.want(Token::Open)?;
        self.want(Token::Name(word.as_bytes()))
    }

    fn name(&mut self) -> Option<Name<'t>> {
        let Some(Token::Name(name)) = self.peek() else {
            return None;
        };
        self.at += 1;
        Some(name)
    }

    /// "`(VAR` names `)`, then `(RULES` rules `)`, names or rules perhaps none, .. nothing else"
    fn system(&mut self) -> Result<System<'t>, u32> {
        self.section("VAR")?;
        // "VAR may name one twice"
        let variables = std::iter::from_fn(|| self.name()).collect();
        self.want(Token::Close)?;
        self.section("RULES")?;
        let mut rules = Vec::new();
        while !self.eat(Token::Close) {
            rules.push(self.rule()?);
        }
        demand(self.peek().is_none(), OUTSIDE_GRAMMAR)?;
        Ok(System { variables, rules })
    }

    /// "a rule being term `->` term"
    fn rule(&mut self) -> Result<Rule<'t>, u32> {
        let left = self.term()?;
        self.want(Token::Arrow)?;
        Ok(Rule { left, right: self.term()? })
    }

    /// "a term is a name with an argument list, and an argument list is terms parted by commas"
    fn term(&mut self) -> Result<Vec<Node<'t>>, u32> {
        let mut nodes = Vec::new();
        // The nodes whose lists are not closed, the innermost last.
        let mut open = Vec::new();
        loop {
            let node = self.node()?;
            nodes.push(node);
            if node.arguments > 0 {
                open.push(nodes.len() - 1);
            } else if !self.another(&mut nodes, &mut open)? {
                return Ok(nodes);
            }
        }
    }

    /// A name, and where its list starts; one with terms in it has one argument for now.
    fn node(&mut self) -> Result<Node<'t>, u32> {
        let name = self.name().ok_or(OUTSIDE_GRAMMAR)?;
        let listed = self.eat(Token::Open);
        // "`a` and `a()` are the same constant"
        let arguments = usize::from(listed && !self.eat(Token::Close));
        Ok(Node { name, listed, arguments })
    }

    /// After a whole term: closes lists up to a comma, after which another argument comes; else the side is at its end.
    fn another(&mut self, nodes: &mut [Node], open: &mut Vec<usize>) -> Result<bool, u32> {
        while let Some(list) = open.last() {
            if self.eat(Token::Comma) {
                nodes[*list].arguments += 1;
                return Ok(true);
            }
            self.want(Token::Close)?;
            open.pop();
        }
        Ok(false)
    }
}

// ---------------------------------------------------------------- numbers and records

/// "numbered by first appearance": symbols in the order of their numbers, with their arities.
#[derive(Default)]
struct Numbers<'t> {
    symbols: Vec<(Name<'t>, u16)>,
    by_name: HashMap<Name<'t>, u16>,
}

impl<'t> Numbers<'t> {
    /// The symbol's number; "16 for a name used with two arities or a count over 01's limits"
    fn symbol(&mut self, node: &Node<'t>) -> Result<u16, u32> {
        demand(node.arguments <= usize::from(ARITY_LIMIT), OVER_LIMITS)?;
        let arity = node.arguments as u16;
        let number = *self.by_name.entry(node.name).or_insert(self.symbols.len() as u16);
        if usize::from(number) == self.symbols.len() {
            demand(self.symbols.len() < SYMBOL_LIMIT, OVER_LIMITS)?;
            self.symbols.push((node.name, arity));
        }
        demand(self.symbols[usize::from(number)].1 == arity, OVER_LIMITS)?;
        Ok(number)
    }

    /// "S symbol | pack | its number, 0, 1, 2 .. | arity, 0 to 8"
    fn symbol_records(&self) -> Vec<u8> {
        self.symbols.iter().zip(0..).flat_map(|((_, arity), number)| record(b'S', number, *arity, 0)).collect()
    }

    fn named_symbols(&self) -> Vec<(String, u16)> {
        self.symbols.iter().map(|(name, arity)| (String::from_utf8_lossy(name).into_owned(), *arity)).collect()
    }
}

/// "holds the text's rules in their order, with these numbers for its names"
fn rule_records<'t>(system: &System<'t>, numbers: &mut Numbers<'t>) -> Result<Vec<u8>, u32> {
    demand(system.rules.len() <= RULE_LIMIT, OVER_LIMITS)?;
    let mut bytes = Vec::new();
    for (rule, number) in system.rules.iter().zip(0..) {
        let counts = [&rule.left, &rule.right].map(Vec::len);
        demand(counts.iter().all(|count| *count <= usize::from(NODE_LIMIT)), OVER_LIMITS)?;
        bytes.extend(record(b'R', number, counts[0] as u16, counts[1] as u16));
        bytes.extend(node_records(rule, &system.variables, numbers)?);
    }
    Ok(bytes)
}

/// "variables by first appearance within the rule", the left side before the right
fn node_records<'t>(rule: &Rule<'t>, variables: &HashSet<Name<'t>>, numbers: &mut Numbers<'t>) -> Result<Vec<u8>, u32> {
    let mut bytes = Vec::new();
    let mut seen: Vec<Name> = Vec::new();
    for node in rule.left.iter().chain(&rule.right) {
        if variables.contains(node.name) {
            bytes.extend(record(b'V', variable_number(&mut seen, node.name)?, 0, 0));
        } else {
            bytes.extend(record(b'F', numbers.symbol(node)?, 0, 0));
        }
    }
    Ok(bytes)
}

/// "a 17th variable in a rule too"
fn variable_number<'t>(seen: &mut Vec<Name<'t>>, name: Name<'t>) -> Result<u16, u32> {
    let number = seen.iter().position(|other| *other == name).unwrap_or(seen.len());
    demand(number <= usize::from(VARIABLE_LIMIT), OVER_LIMITS)?;
    if number == seen.len() {
        seen.push(name);
    }
    Ok(number as u16)
}
