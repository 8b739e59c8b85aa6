//! The names a text declares: symbols with their arities, and variables.

use super::words::{at_line, counted, first_word, lines, number, shown};
use super::{Answer, Mode};
use crate::checker::{ARITY_LIMIT, SYMBOL_LIMIT};
use std::collections::{HashMap, HashSet};

/// A rule that starts with one of these would be taken for a line of that kind.
const LINE_WORDS: [&str; 4] = ["symbols", "variables", "record", "bytes"];

/// Symbols by number and by name, and the variables.
#[derive(Clone, Debug, Default)]
pub struct Names {
    symbols: Vec<(String, u16)>,
    numbers: HashMap<String, u16>,
    variables: HashSet<String>,
}

/// The names that a text's `symbols` and `variables` lines declare.
pub fn declared_names(text: &str, mode: Mode) -> Answer<Names> {
    let mut names = Names::default();
    for (number, line) in lines(text) {
        let declared = match first_word(line) {
            ("symbols", rest) => names.declare_symbols(rest, mode).map(|_| ()),
            ("variables", rest) => names.declare_variables(rest, mode),
            _ => Ok(()),
        };
        declared.map_err(|why| at_line(number, &why))?;
    }
    Ok(names)
}

impl Names {
    /// How many symbols there are.
    pub fn count(&self) -> usize {
        self.symbols.len()
    }

    pub fn arity(&self, symbol: u16) -> Option<u16> {
        self.symbols.get(usize::from(symbol)).map(|(_, arity)| *arity)
    }

    /// A symbol as texts call it: by its name, else by its number.
    pub fn symbol_text(&self, symbol: u16) -> String {
        self.symbols.get(usize::from(symbol)).map_or_else(|| format!("@{symbol}"), |(name, _)| name.clone())
    }

    /// The `symbols` line that declares them; nothing if there are none.
    pub fn symbols_line(&self) -> String {
        if self.symbols.is_empty() {
            return String::new();
        }
        let words: Vec<String> = self.symbols.iter().map(|(name, arity)| format!("{name}/{arity}")).collect();
        format!("symbols {}\n", words.join(" "))
    }

    /// One more symbol, and its number; of two with one name the first bears it.
    pub fn add_symbol(&mut self, name: &str, arity: u16, limit: usize) -> Answer<u16> {
        let number = counted(self.count() + 1, limit, "symbols")? - 1;
        self.numbers.entry(name.to_string()).or_insert(number);
        self.symbols.push((name.to_string(), arity));
        Ok(number)
    }

    /// `name/arity` for each symbol, in the order of their numbers; answers numbers and arities.
    pub fn declare_symbols(&mut self, words: &str, mode: Mode) -> Answer<Vec<(u16, u16)>> {
        let mut added = Vec::new();
        for word in words.split_whitespace() {
            let (name, digits) = word.split_once('/').ok_or_else(|| format!("{} is not name/arity", shown(word)))?;
            let arity = number(digits)?;
            self.demand_new(name, mode)?;
            mode.demand(arity <= ARITY_LIMIT, || {
                format!("{} has the arity {arity}; 0 to {ARITY_LIMIT} is wanted", shown(name))
            })?;
            added.push((self.add_symbol(name, arity, mode.limit(SYMBOL_LIMIT))?, arity));
        }
        Ok(added)
    }

    /// `variables x y z`
    pub fn declare_variables(&mut self, words: &str, mode: Mode) -> Answer<()> {
        for name in words.split_whitespace() {
            self.demand_new(name, mode)?;
            self.variables.insert(name.to_string());
        }
        Ok(())
    }

    /// Strict mode: a name that can be read in a rule, and means nothing yet.
    fn demand_new(&self, name: &str, mode: Mode) -> Answer<()> {
        let plain = |c: char| c.is_ascii_alphanumeric() || matches!(c, '_' | '\'');
        mode.demand(!name.is_empty() && name.chars().all(plain), || {
            format!("{} is no name; letters from a to z, digits, _ and ' are wanted", shown(name))
        })?;
        mode.demand(!LINE_WORDS.contains(&name), || {
            format!("{name:?} starts a line of its own; another name is wanted")
        })?;
        let known = self.numbers.contains_key(name) || self.variables.contains(name);
        mode.demand(!known, || format!("{} is declared twice; each name is wanted once", shown(name)))
    }

    /// A symbol by name, or `@n` by number; none if the name is no symbol's.
    pub fn symbol(&self, name: &str, mode: Mode) -> Answer<Option<u16>> {
        let Some(digits) = name.strip_prefix('@') else {
            return Ok(self.numbers.get(name).copied());
        };
        let symbol = number(digits)?;
        let count = self.count();
        mode.demand(usize::from(symbol) < count, || {
            format!("@{symbol} is no declared symbol; {count} are declared, from @0 on")
        })?;
        Ok(Some(symbol))
    }

    /// Loose mode takes every name for a variable that is no symbol.
    pub fn is_variable(&self, name: &str, mode: Mode) -> bool {
        mode == Mode::Loose || self.variables.contains(name)
    }
}
