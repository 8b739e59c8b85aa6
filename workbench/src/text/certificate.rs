//! From a certificate's text to its bytes.

use super::names::Names;
use super::words::{at_line, counted, explicit_bytes, explicit_record, first_word, lines, number, shown};
use super::{Answer, Mode, COUNT_LIMIT};
use crate::checker::{Pair, CERTIFICATE_LIMIT, PAIR_LIMIT, WEIGHTING_LIMIT};
use crate::encode::record;

/// From a certificate's text to its bytes. What strict mode assembles is refused with neither 1 nor 2, and with 3
/// only where `marked` names a constructor: the text knows symbols, not rules.
pub fn assemble_certificate(text: &str, mode: Mode) -> Answer<Vec<u8>> {
    let mut assembly = CertificateAssembly::new(mode);
    let mut last = 1;
    for (number, line) in lines(text) {
        assembly.line(number, line).map_err(|why| at_line(number, &why))?;
        last = number;
    }
    assembly.judge_end().map_err(|why| at_line(last, &why))?;
    Ok(assembly.bytes)
}

/// The bytes so far; the last C record is mended when a pair or a weighting is added.
struct CertificateAssembly {
    mode: Mode,
    names: Names,
    bytes: Vec<u8>,
    components: usize,
    open: Option<Open>,
}

/// The component that is being written.
struct Open {
    line: usize,
    head: usize,
    weighted: bool,
    /// The `weighting` lines so far: the weightings after the first.
    later: usize,
    stage: Stage,
    pairs: usize,
    last_pair: Option<Pair>,
    last_weight: Option<(u16, u16)>,
}

/// Strict mode: the parts of a component, in their order.
#[derive(Clone, Copy, PartialEq, Eq, PartialOrd, Ord)]
enum Stage {
    Pairs,
    Weights,
    Marked,
}

impl Stage {
    fn kind(self) -> u8 {
        match self {
            Stage::Pairs => b'P',
            Stage::Weights => b'W',
            Stage::Marked => b'M',
        }
    }
}

impl CertificateAssembly {
    fn new(mode: Mode) -> CertificateAssembly {
        CertificateAssembly { mode, names: Names::default(), bytes: Vec::new(), components: 0, open: None }
    }

    fn line(&mut self, number: usize, line: &str) -> Answer<()> {
        match first_word(line) {
            ("symbols", rest) => self.symbols(rest),
            ("record", rest) => explicit_record(rest, self.mode).map(|bytes| self.bytes.extend(bytes)),
            ("bytes", rest) => explicit_bytes(rest, self.mode).map(|bytes| self.bytes.extend(bytes)),
            ("component", rest) => self.component(number, rest),
            ("pair", rest) => self.pair(rest),
            ("weighting", rest) => self.weighting(rest),
            ("weight", rest) => self.weights(Stage::Weights, rest),
            ("marked", rest) => self.weights(Stage::Marked, rest),
            _ => Err(format!("{} is no line of a certificate", shown(line))),
        }?;
        let size = self.bytes.len();
        self.mode.demand(size <= CERTIFICATE_LIMIT, || {
            format!("{size} bytes up to this line; at most {CERTIFICATE_LIMIT} are wanted")
        })
    }

    fn symbols(&mut self, words: &str) -> Answer<()> {
        self.mode.demand(self.open.is_none(), || {
            "symbols after a component; they are wanted before the first one".to_string()
        })?;
        self.names.declare_symbols(words, self.mode).map(|_| ())
    }

    /// `component` or `component without weights`
    fn component(&mut self, line: usize, words: &str) -> Answer<()> {
        let weighted = match words.split_whitespace().collect::<Vec<_>>()[..] {
            [] => true,
            ["without", "weights"] => false,
            _ => return Err(format!("component {}; nothing or `without weights` is wanted after it", shown(words))),
        };
        self.judge_end()?;
        let number = counted(self.components + 1, COUNT_LIMIT, "components")? - 1;
        self.components += 1;
        let (head, stage) = (self.bytes.len(), Stage::Pairs);
        self.open = Some(Open { line, head, weighted, later: 0, stage, pairs: 0, last_pair: None, last_weight: None });
        self.bytes.extend(record(b'C', number, u16::from(weighted), 0));
        Ok(())
    }

    /// Strict mode: no component ends without a pair.
    fn judge_end(&self) -> Answer<()> {
        match &self.open {
            Some(open) if open.pairs == 0 => self.mode.demand(false, || {
                format!("the component of line {} ends without a pair; at least one is wanted", open.line)
            }),
            _ => Ok(()),
        }
    }

    /// `pair rule place`
    fn pair(&mut self, words: &str) -> Answer<()> {
        let [rule, place] = words.split_whitespace().collect::<Vec<_>>()[..] else {
            return Err(format!("pair {}; a rule and a place are wanted", shown(words)));
        };
        let pair = (number(rule)?, number(place)?);
        let open = self.open.as_mut().ok_or("a pair before the first component; a component is wanted first")?;
        let count = counted(open.pairs + 1, self.mode.limit(usize::from(PAIR_LIMIT)), "pairs in a component")?;
        open.judge_pair(pair, self.mode)?;
        (open.pairs, open.last_pair) = (open.pairs + 1, Some(pair));
        let count_field = open.head + 6..open.head + 8;
        self.bytes.extend(record(b'P', pair.0, pair.1, 0));
        self.bytes[count_field].copy_from_slice(&count.to_le_bytes());
        Ok(())
    }

    /// `weighting`: the next one of the component begins.
    fn weighting(&mut self, words: &str) -> Answer<()> {
        if !words.is_empty() {
            return Err(format!("weighting {}; nothing is wanted after it", shown(words)));
        }
        let open = self.open.as_mut().ok_or("a weighting before the first component; a component is wanted first")?;
        open.judge_weights(self.mode, "weighting")?;
        let limit = self.mode.limit(usize::from(WEIGHTING_LIMIT));
        let count = counted(open.later + 2, limit, "weightings in a component")?;
        (open.later, open.stage, open.last_weight) = (open.later + 1, Stage::Weights, None);
        self.bytes.extend(record(b'L', count - 1, 0, 0));
        // Loose mode: without weights it stays so, and the record is a stray one.
        if open.weighted {
            self.bytes[open.head + 4..open.head + 6].copy_from_slice(&count.to_le_bytes());
        }
        Ok(())
    }

    /// `name = 1 + 2*x1 + x2`: a record for each summand, as written.
    fn weights(&mut self, stage: Stage, words: &str) -> Answer<()> {
        let parts = words.split_once('=');
        let (name, sum) = parts.ok_or_else(|| format!("{}; name = sum is wanted", shown(words)))?;
        let name = name.trim();
        let symbol = self.names.symbol(name, self.mode)?;
        let symbol = symbol.ok_or_else(|| format!("{} is not declared; a symbol is wanted", shown(name)))?;
        self.enter(stage)?;
        for summand in sum.split('+') {
            let (place, value) = self.summand(symbol, summand.trim())?;
            self.judge_weight((symbol, place))?;
            self.bytes.extend(record(stage.kind(), symbol, place, value));
        }
        Ok(())
    }

    /// Strict mode: pairs, then weights, then marked weights.
    fn enter(&mut self, stage: Stage) -> Answer<()> {
        let mode = self.mode;
        let Some(open) = &mut self.open else {
            return mode.demand(false, || "a weight before the first component; a component is wanted first".into());
        };
        open.judge_weights(mode, "weight")?;
        mode.demand(stage >= open.stage, || "weight after marked; all weight lines are wanted first".into())?;
        if stage != open.stage {
            (open.stage, open.last_weight) = (stage, None);
        }
        Ok(())
    }

    /// Strict mode: records rise by symbol and place.
    fn judge_weight(&mut self, place: (u16, u16)) -> Answer<()> {
        let Some(open) = &mut self.open else {
            return Ok(());
        };
        let rises = open.last_weight.is_none_or(|last| last < place);
        open.last_weight = Some(place);
        self.mode.demand(rises, || {
            let name = self.names.symbol_text(place.0);
            format!("{}, place {} stands after one as great; weights are wanted rising", shown(&name), place.1)
        })
    }

    /// `7`, `x1` or `7*x1` as place and value.
    fn summand(&self, symbol: u16, text: &str) -> Answer<(u16, u16)> {
        let (value, argument) = match text.split_once('*') {
            Some((value, argument)) => (number(value.trim())?, argument.trim()),
            None if text.starts_with('x') => (1, text),
            None => return Ok((0, number(text)?)),
        };
        let place = argument.strip_prefix('x').ok_or_else(|| format!("{} is not x1, x2 ..", shown(argument)))?;
        let place = number(place)?;
        let arity = self.names.arity(symbol).unwrap_or(0);
        self.mode.demand((1..=arity).contains(&place), || {
            let name = self.names.symbol_text(symbol);
            format!("x{place} is no argument of {}; its arity is {arity}, and they count from x1", shown(&name))
        })?;
        Ok((place, value))
    }
}

impl Open {
    /// Strict mode: weights stand after pairs, and only in a component with weights.
    fn judge_weights(&self, mode: Mode, what: &str) -> Answer<()> {
        mode.demand(self.weighted, || {
            format!("a {what} in the component without weights of line {}; none is wanted", self.line)
        })?;
        mode.demand(self.pairs > 0, || format!("a {what} before the pairs; at least one pair is wanted first"))
    }

    /// Strict mode: pairs come first and rise; without weights there is one.
    fn judge_pair(&self, pair: Pair, mode: Mode) -> Answer<()> {
        mode.demand(self.stage == Stage::Pairs, || "a pair after weights; all pairs are wanted first".into())?;
        mode.demand(self.weighted || self.pairs == 0, || {
            format!("a second pair in the component without weights of line {}; one is wanted", self.line)
        })?;
        mode.demand(self.last_pair.is_none_or(|last| last < pair), || {
            format!("pair {} {} stands after one as great; pairs are wanted rising", pair.0, pair.1)
        })
    }
}
