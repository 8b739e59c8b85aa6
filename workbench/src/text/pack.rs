//! From a pack's text to its bytes.

use super::names::Names;
use super::words::{at_line, counted, explicit_bytes, explicit_record, first_word, lines, number, shown};
use super::{Answer, Mode, DEPTH_LIMIT};
use crate::checker::{judge_pack, NODE_LIMIT, RULE_LIMIT, VARIABLE_LIMIT};
use crate::encode::record;
use std::collections::{HashMap, HashSet};

/// From a pack's text to its bytes; what strict mode assembles passes 1 to 6 of document 01.
pub fn assemble_pack(text: &str, mode: Mode) -> Answer<Vec<u8>> {
    let mut assembly = PackAssembly { mode, names: Names::default(), bytes: Vec::new(), rules: 0 };
    let mut last = 1;
    for (number, line) in lines(text) {
        assembly.line(line).map_err(|why| at_line(number, &why))?;
        last = number;
    }
    let refusal = judge_pack(&assembly.bytes).err();
    mode.demand(refusal.is_none(), || at_line(last, &format!("the pack is refused with {}", refusal.unwrap_or(0))))?;
    Ok(assembly.bytes)
}

struct PackAssembly {
    mode: Mode,
    names: Names,
    bytes: Vec<u8>,
    rules: usize,
}

impl PackAssembly {
    fn line(&mut self, line: &str) -> Answer<()> {
        match first_word(line) {
            ("symbols", rest) => self.symbols(rest),
            ("variables", rest) => self.names.declare_variables(rest, self.mode),
            ("record", rest) => explicit_record(rest, self.mode).map(|bytes| self.bytes.extend(bytes)),
            ("bytes", rest) => explicit_bytes(rest, self.mode).map(|bytes| self.bytes.extend(bytes)),
            _ => self.rule(line),
        }
    }

    fn symbols(&mut self, words: &str) -> Answer<()> {
        self.mode.demand(self.rules == 0, || "symbols after a rule; they are wanted before the first one".into())?;
        for (number, arity) in self.names.declare_symbols(words, self.mode)? {
            self.bytes.extend(record(b'S', number, arity, 0));
        }
        Ok(())
    }

    /// `left -> right`
    fn rule(&mut self, line: &str) -> Answer<()> {
        let sides = line.split_once("->");
        let (left, right) =
            sides.ok_or_else(|| format!("{} is no rule, left -> right, and no line of another kind", shown(line)))?;
        let number = counted(self.rules + 1, self.mode.limit(RULE_LIMIT), "rules")? - 1;
        let left = read_side(left, &self.names, self.mode)?;
        let right = read_side(right, &self.names, self.mode)?;
        judge_rule(&left, &right, self.mode)?;
        let (left_count, right_count) = (node_count(&left, self.mode)?, node_count(&right, self.mode)?);
        self.bytes.extend(record(b'R', number, left_count, right_count));
        let numbers = numbers_of_names(&left, &right)?;
        self.bytes.extend(left.iter().chain(&right).flat_map(|node| node_record(node, &numbers)));
        self.rules += 1;
        Ok(())
    }
}

/// One node of a side, in prefix order.
#[derive(Clone, Copy, PartialEq, Eq, Hash)]
enum Node<'t> {
    Symbol(u16),
    /// `#n`
    Numbered(u16),
    Named(&'t str),
}

impl Node<'_> {
    fn is_variable(&self) -> bool {
        !matches!(self, Node::Symbol(_))
    }

    /// A variable as the text has it.
    fn variable_text(&self) -> String {
        match self {
            Node::Named(name) => shown(name),
            Node::Numbered(number) | Node::Symbol(number) => format!("#{number}"),
        }
    }
}

fn node_count(nodes: &[Node], mode: Mode) -> Answer<u16> {
    counted(nodes.len(), mode.limit(usize::from(NODE_LIMIT)), "nodes on a side")
}

fn node_record(node: &Node, numbers: &HashMap<&str, u16>) -> [u8; 8] {
    match node {
        Node::Symbol(symbol) => record(b'F', *symbol, 0, 0),
        Node::Numbered(number) => record(b'V', *number, 0, 0),
        Node::Named(name) => record(b'V', numbers[name], 0, 0),
    }
}

/// Names get the lowest numbers not written out in this rule, by first appearance.
fn numbers_of_names<'t>(left: &[Node<'t>], right: &[Node<'t>]) -> Answer<HashMap<&'t str, u16>> {
    let nodes = || left.iter().chain(right);
    let written: HashSet<&Node> = nodes().filter(|node| matches!(node, Node::Numbered(_))).collect();
    let mut free = (0..=u16::MAX).filter(|number| !written.contains(&Node::Numbered(*number)));
    let mut numbers = HashMap::new();
    for node in nodes() {
        if let Node::Named(name) = node {
            if !numbers.contains_key(name) {
                numbers.insert(*name, free.next().ok_or("more variables in a rule than there are numbers, 65536")?);
            }
        }
    }
    Ok(numbers)
}

/// Strict mode: what document 01 asks of a rule beyond its two terms.
fn judge_rule(left: &[Node], right: &[Node], mode: Mode) -> Answer<()> {
    if let Some(root) = left.first().filter(|root| root.is_variable()) {
        mode.demand(false, || format!("the left side is the variable {}; a symbol is wanted", root.variable_text()))?;
    }
    let on_left: HashSet<&Node> = left.iter().filter(|node| node.is_variable()).collect();
    if let Some(loose) = right.iter().find(|node| node.is_variable() && !on_left.contains(node)) {
        let text = loose.variable_text();
        mode.demand(false, || format!("the variable {text} stands on the right; it is wanted on the left too"))?;
    }
    let (count, limit) = (on_left.len(), usize::from(VARIABLE_LIMIT) + 1);
    mode.demand(count <= limit, || format!("{count} variables in a rule; at most {limit} are wanted"))
}

fn read_side<'t>(text: &'t str, names: &Names, mode: Mode) -> Answer<Vec<Node<'t>>> {
    let mut reader = SideReader { names, mode, rest: text.trim(), nodes: Vec::new() };
    reader.term(1)?;
    match reader.rest {
        "" => Ok(reader.nodes),
        rest => Err(format!("{} stands after a term; the end of the side is wanted", shown(rest))),
    }
}

/// Reads the terms of one side, from the front of `rest`.
struct SideReader<'a, 't> {
    names: &'a Names,
    mode: Mode,
    rest: &'t str,
    nodes: Vec<Node<'t>>,
}

impl<'t> SideReader<'_, 't> {
    fn term(&mut self, depth: usize) -> Answer<()> {
        let name = self.name()?;
        let node = self.node(name)?;
        self.nodes.push(node);
        // Held here too, so that a text far too long is not kept whole.
        node_count(&self.nodes, self.mode)?;
        match node {
            Node::Symbol(symbol) => {
                let found = self.arguments(depth)?;
                self.judge_arity(name, symbol, found)
            }
            _ => self.no_arguments(name),
        }
    }

    fn name(&mut self) -> Answer<&'t str> {
        let end = self.rest.find(|c: char| !is_name_char(c)).unwrap_or(self.rest.len());
        let (name, rest) = self.rest.split_at(end);
        if name.is_empty() {
            return Err(format!("{} stands where a term is wanted", shown(self.rest)));
        }
        self.rest = rest.trim_start();
        Ok(name)
    }

    fn node(&self, name: &'t str) -> Answer<Node<'t>> {
        if let Some(digits) = name.strip_prefix('#') {
            return self.numbered(digits);
        }
        match self.names.symbol(name, self.mode)? {
            Some(symbol) => Ok(Node::Symbol(symbol)),
            None if self.names.is_variable(name, self.mode) => Ok(Node::Named(name)),
            None => Err(format!("{} is not declared; a symbol or a variable is wanted", shown(name))),
        }
    }

    fn numbered(&self, digits: &str) -> Answer<Node<'t>> {
        let variable = number(digits)?;
        self.mode.demand(variable <= VARIABLE_LIMIT, || {
            format!("#{variable} is no variable; #0 to #{VARIABLE_LIMIT} are wanted")
        })?;
        Ok(Node::Numbered(variable))
    }

    /// `(term, term)`, or nothing for no arguments; answers how many.
    fn arguments(&mut self, depth: usize) -> Answer<usize> {
        if !self.eat('(') {
            return Ok(0);
        }
        if depth >= DEPTH_LIMIT {
            return Err(format!("terms nest deeper than {DEPTH_LIMIT}; at most {DEPTH_LIMIT} is wanted"));
        }
        let mut count = 0;
        loop {
            self.term(depth + 1)?;
            count += 1;
            if !self.eat(',') {
                return self.list_end().map(|()| count);
            }
        }
    }

    fn list_end(&mut self) -> Answer<()> {
        if self.eat(')') {
            Ok(())
        } else {
            Err(format!("{} stands where , or ) is wanted", shown(self.rest)))
        }
    }

    fn eat(&mut self, sign: char) -> bool {
        let after = self.rest.strip_prefix(sign);
        self.rest = after.map_or(self.rest, str::trim_start);
        after.is_some()
    }

    fn judge_arity(&self, name: &str, symbol: u16, found: usize) -> Answer<()> {
        let arity = self.names.arity(symbol).unwrap_or(0);
        self.mode.demand(found == usize::from(arity), || {
            format!("{} has the arity {arity}, found with {found} arguments", shown(name))
        })
    }

    fn no_arguments(&self, name: &str) -> Answer<()> {
        if self.rest.starts_with('(') {
            return Err(format!("{} is a variable and no symbol; no ( is wanted after it", shown(name)));
        }
        Ok(())
    }
}

fn is_name_char(c: char) -> bool {
    c.is_alphanumeric() || matches!(c, '_' | '\'' | '#' | '@')
}
