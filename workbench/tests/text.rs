//! The text language: what strict mode refuses, what loose mode takes, and that every file has a text.

use std::path::Path;
use workbench::checker::{self, judge_pack};
use workbench::encode::{self, certificate_bytes, pack_bytes, record};
use workbench::generate::packs::{dense, guided, Size};
use workbench::generate::{case, spoil};
use workbench::random::Random;
use workbench::text::{
    assemble_certificate, assemble_pack, disassemble_certificate, disassemble_pack, mode_of, Mode, DEPTH_LIMIT,
    LOOSE_NOTE,
};

/// Strict mode refuses a pack's text at this line, with all these words.
fn refused_pack(text: &str, line: usize, words: &[&str]) {
    refused(assemble_pack(text, Mode::Strict), text, line, words);
}

/// The same for a certificate's text.
fn refused_certificate(text: &str, line: usize, words: &[&str]) {
    refused(assemble_certificate(text, Mode::Strict), text, line, words);
}

fn refused(answer: Result<Vec<u8>, String>, text: &str, line: usize, words: &[&str]) {
    let start: String = text.chars().take(200).collect();
    let why = answer.expect_err(&start);
    assert!(why.starts_with(&format!("line {line}: ")), "{why} for {start}");
    assert!(words.iter().all(|word| why.contains(word)), "{why} for {start}");
    assert!(why.len() < 300 && !why.contains('\n'), "{why} for {start}");
}

fn strict_pack(text: &str) -> Vec<u8> {
    assemble_pack(text, Mode::Strict).unwrap()
}

fn loose_pack(text: &str) -> Vec<u8> {
    assemble_pack(text, Mode::Loose).unwrap()
}

// ---------------------------------------------------------------- strict packs

#[test]
fn a_wrong_number_of_arguments_is_refused() {
    let start = "symbols f/2 g/2 a/0\nvariables x y z\n";
    let rule = |rule: &str| format!("{start}{rule}");
    refused_pack(&rule("f(g(x), y, z) -> f(x, y)"), 3, &["\"g\"", "arity 2", "1 arguments"]);
    refused_pack(&rule("f(x, y, z) -> f(x, y)"), 3, &["\"f\"", "arity 2", "3 arguments"]);
    refused_pack(&rule("f(x, y) -> f"), 3, &["\"f\"", "arity 2", "0 arguments"]);
    refused_pack(&rule("f(x, y) -> a(x)"), 3, &["\"a\"", "arity 0", "1 arguments"]);
    refused_pack(&rule("f(x, y) -> @0(x)"), 3, &["\"@0\"", "arity 2", "1 arguments"]);
    // Without arities the same text was another rule: in loose mode it still is.
    let nodes = loose_pack(&rule("f(g(x), y, z) -> f(x, y)"));
    assert_eq!(nodes[24..32], record(b'R', 0, 5, 3));
}

#[test]
fn a_misspelt_constant_is_refused() {
    refused_pack("symbols zero/0 f/1\nvariables x\nf(zer0) -> zero", 3, &["\"zer0\"", "not declared"]);
    refused_pack("symbols zero/0 f/1\nvariables x\nf(x) -> zer0", 3, &["\"zer0\"", "not declared"]);
    assert!(assemble_pack("symbols zero/0 f/1\nf(zer0) -> zero", Mode::Loose).is_ok());
}

#[test]
fn a_variable_takes_no_arguments() {
    refused_pack("symbols f/1\nvariables x\nf(x(x)) -> x", 3, &["\"x\"", "variable"]);
    refused_pack("symbols f/1\nf(#1(#1)) -> #1", 2, &["\"#1\"", "variable"]);
    refused(assemble_pack("symbols f/1\nf(g(x)) -> x", Mode::Loose), "loose", 2, &["\"g\"", "no symbol"]);
}

#[test]
fn declarations_are_judged() {
    refused_pack("symbols f/1 f/2", 1, &["\"f\"", "twice"]);
    refused_pack("symbols f/1\n\nsymbols f/1", 3, &["\"f\"", "twice"]);
    refused_pack("symbols f/1\nvariables f", 2, &["\"f\"", "twice"]);
    refused_pack("variables f\nsymbols f/1", 2, &["\"f\"", "twice"]);
    refused_pack("variables x y x", 1, &["\"x\"", "twice"]);
    refused_pack("symbols f/9", 1, &["\"f\"", "9", "0 to 8"]);
    refused_pack("symbols f/+1", 1, &["\"+1\"", "no number"]);
    refused_pack("symbols f", 1, &["\"f\"", "name/arity"]);
    for name in ["/1", "f-g/1", "@1/1", "#1/1", "\u{e9}/1", "f(x)/1"] {
        refused_pack(&format!("symbols {name}"), 1, &["no name"]);
    }
    for name in ["symbols", "variables", "record", "bytes"] {
        refused_pack(&format!("symbols a/0 {name}/0\n{name} -> a"), 1, &[name]);
    }
    let many = |count: usize| (0..count).map(|n| format!("s{n}/0 ")).collect::<String>();
    assert_eq!(strict_pack(&format!("symbols {}", many(64))).len(), 64 * 8);
    refused_pack(&format!("symbols {}", many(65)), 1, &["64 symbols"]);
    refused_pack("symbols a/0\na -> a\nsymbols b/0", 3, &["before the first"]);
}

#[test]
fn rules_are_judged() {
    let start = "symbols a/0 f/1 g/8\nvariables x y z\n";
    let rule = |rule: &str| format!("{start}{rule}");
    refused_pack(&rule("x -> a"), 3, &["\"x\"", "left"]);
    refused_pack(&rule("#3 -> a"), 3, &["#3", "left"]);
    refused_pack(&rule("f(x) -> y"), 3, &["\"y\"", "left"]);
    refused_pack(&rule("f(x) -> #0"), 3, &["#0", "left"]);
    refused_pack(&rule("f(#16) -> a"), 3, &["#16", "#15"]);
    refused_pack(&rule("@3 -> a"), 3, &["@3", "3 are declared"]);
    refused_pack(&rule("f(@) -> a"), 3, &["no number"]);
    refused_pack(&rule("f(x -> x"), 3, &["wanted"]);
    refused_pack(&rule("f(x)) -> x"), 3, &["\")\""]);
    refused_pack(&rule("f() -> a"), 3, &["term is wanted"]);
    refused_pack(&rule("f(x) x -> a"), 3, &["\"x\""]);
    refused_pack(&rule("a -> a -> a"), 3, &["\"-> a\""]);
    refused_pack(&rule("-> a"), 3, &["term is wanted"]);
    refused_pack(&rule("a"), 3, &["\"a\"", "no rule"]);
    refused_pack(&rule("record F 0 0 0 0"), 3, &["--loose"]);
    refused_pack(&rule("bytes 1"), 3, &["--loose"]);
    assert_eq!(strict_pack(&rule(&"a -> a\n".repeat(64))).len(), 3 * 8 + 64 * 24);
    refused_pack(&rule(&"a -> a\n".repeat(65)), 67, &["64 rules"]);
}

#[test]
fn limits_of_a_rule_are_held() {
    let chain = |count: usize| format!("{}a{}", "f(".repeat(count - 1), ")".repeat(count - 1));
    let sides = |left: usize, right: usize| format!("symbols a/0 f/1\n{} -> {}", chain(left), chain(right));
    assert_eq!(strict_pack(&sides(32, 32)).len(), 2 * 8 + 8 + 64 * 8);
    refused_pack(&sides(33, 1), 2, &["32 nodes"]);
    refused_pack(&sides(1, 33), 2, &["32 nodes"]);
    let variables = |count: usize| {
        let names: Vec<String> = (0..count).map(|n| format!("x{n}")).collect();
        let (first, second) = names.split_at(8);
        let (second, third) = second.split_at(8.min(second.len()));
        let third = if third.is_empty() { "a".to_string() } else { third.join(", ") };
        let declared = format!("symbols a/0 g/8 p/3\nvariables {}\n", names.join(" "));
        format!("{declared}p(g({}), g({}), {third}) -> a", first.join(", "), second.join(", "))
    };
    assert!(assemble_pack(&variables(16), Mode::Strict).is_ok());
    refused_pack(&variables(17), 3, &["17 variables", "16"]);
    // Names and numbers together.
    let mixed = variables(16).replace(", a) ->", ", #15) ->");
    refused_pack(&mixed, 3, &["17 variables", "16"]);
}

#[test]
fn names_get_the_numbers_not_written_out() {
    let bytes = strict_pack("symbols f/3\nvariables y z\nf(y, #0, z) -> f(#0, z, y)");
    assert_eq!(disassemble_pack(&bytes), "symbols f0/3\nf0(#1, #0, #2) -> f0(#0, #2, #1)\n");
    let bytes = strict_pack("symbols f/2\nvariables b a\nf(a, b) -> f(b, a)");
    assert_eq!(disassemble_pack(&bytes), "symbols f0/2\nvariables x y\nf0(x, y) -> f0(y, x)\n");
}

// ---------------------------------------------------------------- strict certificates

#[test]
fn certificates_are_judged() {
    let start = "symbols a/0 f/2\ncomponent\n";
    let lines = |lines: &str| format!("{start}{lines}");
    refused_certificate("pair 0 0", 1, &["component"]);
    refused_certificate("symbols f/1\nweight f = 1", 2, &["component"]);
    refused_certificate(&lines("component"), 3, &["line 2", "pair"]);
    refused_certificate(&lines("; nothing more"), 2, &["line 2", "pair"]);
    refused_certificate(&lines("weight f = 1"), 3, &["pair"]);
    refused_certificate(&lines("pair 0 0\npair 0 0"), 4, &["rising"]);
    refused_certificate(&lines("pair 1 0\npair 0 1"), 4, &["rising"]);
    refused_certificate(&lines("pair 0"), 3, &["a rule and a place"]);
    refused_certificate(&lines("pair 0 0 0"), 3, &["a rule and a place"]);
    refused_certificate(&lines("pair 0 65536"), 3, &["\"65536\""]);
    refused_certificate(&lines("pair 0 0\nweight f = 1\npair 0 1"), 5, &["pairs"]);
    refused_certificate(&lines("pair 0 0\nmarked f = 1\nweight f = 1"), 5, &["weight after marked"]);
    refused_certificate(&lines("pair 0 0\nweight f = 1\nweight a = 1"), 5, &["rising"]);
    refused_certificate(&lines("pair 0 0\nweight f = x1 + 1"), 4, &["rising"]);
    refused_certificate(&lines("pair 0 0\nmarked f = 1 + 2"), 4, &["rising"]);
    refused_certificate(&lines("pair 0 0\nweight f = x3"), 4, &["x3", "\"f\"", "arity is 2"]);
    refused_certificate(&lines("pair 0 0\nweight f = x0"), 4, &["x0", "from x1"]);
    refused_certificate(&lines("pair 0 0\nweight f = 65536"), 4, &["\"65536\""]);
    refused_certificate(&lines("pair 0 0\nweight f = 65536*x1"), 4, &["\"65536\""]);
    refused_certificate(&lines("pair 0 0\nweight f = 2*y"), 4, &["\"y\""]);
    refused_certificate(&lines("pair 0 0\nweight f ="), 4, &["no number"]);
    refused_certificate(&lines("pair 0 0\nweight f 1"), 4, &["="]);
    refused_certificate(&lines("pair 0 0\nweight g = 1"), 4, &["\"g\""]);
    refused_certificate(&lines("pair 0 0\nmarked @2 = 1"), 4, &["@2", "2 are declared"]);
    refused_certificate(&lines("pair 0 0\nsymbols b/0"), 4, &["before the first"]);
    refused_certificate(&lines("pair 0 0\nrecord P 0 0 0 0"), 4, &["--loose"]);
    refused_certificate(&lines("pair 0 0\nbytes 0"), 4, &["--loose"]);
    refused_certificate("component with weights", 1, &["without weights"]);
    refused_certificate("component without weights\npair 0 0\npair 0 1", 3, &["second pair"]);
    refused_certificate("symbols f/1\ncomponent without weights\npair 0 0\nweight f = 1", 4, &["without weights"]);
    refused_certificate("variables x", 1, &["no line of a certificate"]);
}

#[test]
fn weightings_are_judged() {
    let start = "symbols a/0 f/2\ncomponent\n";
    let lines = |lines: &str| format!("{start}{lines}");
    refused_certificate("weighting", 1, &["component is wanted first"]);
    refused_certificate(&lines("weighting"), 3, &["a weighting before the pairs"]);
    refused_certificate(&lines("pair 0 0\nweighting\npair 0 1"), 5, &["pairs are wanted first"]);
    refused_certificate(&lines("pair 0 0\nweighting 1"), 4, &["\"1\"", "nothing is wanted"]);
    refused_certificate(&lines("pair 0 0\nweighting\nmarked f = 1\nweight f = 1"), 6, &["weight after marked"]);
    refused_certificate(&lines("pair 0 0\nweighting\nweight f = 1\nweight a = 1"), 6, &["rising"]);
    refused_certificate(&lines("pair 0 0\nweighting\nmarked f = x1\nmarked f = x1"), 6, &["rising"]);
    refused_certificate("component without weights\npair 0 0\nweighting", 3, &["line 1", "without weights"]);
    let weightings = |count: usize| lines(&format!("pair 0 0\n{}", "weighting\n".repeat(count - 1)));
    let most = assemble_certificate(&weightings(8), Mode::Strict).unwrap();
    assert_eq!(most[..8], record(b'C', 0, 8, 1));
    assert_eq!(most[most.len() - 8..], record(b'L', 7, 0, 0));
    refused_certificate(&weightings(9), 11, &["more than 8 weightings"]);
    assert_eq!(assemble_certificate(&weightings(9), Mode::Loose).unwrap()[..8], record(b'C', 0, 9, 1));
}

/// The numbers and the count of weightings are filled in, and weights rise anew after each `weighting`.
#[test]
fn weightings_are_filled_in() {
    let weights = "weight f = 1 + x1\nmarked f = x2\n";
    let component = format!("component\npair 0 0\n{}", [weights; 3].join("weighting\n"));
    let text = format!("symbols a/0 f/2\n{component}{component}");
    let bytes = assemble_certificate(&text, Mode::Strict).unwrap();
    assert_eq!(assemble_certificate(&text, Mode::Loose).unwrap(), bytes);
    let (records, _) = bytes.as_chunks::<8>();
    let kinds = String::from_utf8(records.iter().map(|record| record[0]).collect()).unwrap();
    assert_eq!(kinds, "CPWWMLWWMLWWM".repeat(2));
    for start in [0, 13] {
        assert_eq!(records[start], record(b'C', start as u16 / 13, 3, 1));
        assert_eq!(records[start + 5], record(b'L', 1, 0, 0));
        assert_eq!(records[start + 9], record(b'L', 2, 0, 0));
    }
    let shown = disassemble_certificate(&bytes, &strict_pack("symbols a/0 f/2\nvariables x y\nf(x, y) -> f(y, x)"));
    assert_eq!(mode_of(&shown), Mode::Strict);
    assert_eq!(shown.matches("\nweighting\n").count(), 4, "{shown}");
}

/// In a component without weights a weighting is a stray record, and stays one in the text.
#[test]
fn loose_weightings_are_strays() {
    let text = "component without weights\npair 0 0\nweighting\nweighting\n";
    let bytes = assemble_certificate(text, Mode::Loose).unwrap();
    let strays = [record(b'C', 0, 0, 1), record(b'P', 0, 0, 0), record(b'L', 1, 0, 0), record(b'L', 2, 0, 0)];
    assert_eq!(bytes, strays.concat());
    assert_eq!(disassemble_certificate(&bytes, &[]), format!("{LOOSE_NOTE}\n{text}"));
    // Numbers that are not filled in so have no such text.
    let odd = [record(b'C', 0, 2, 1), record(b'P', 0, 0, 0), record(b'L', 2, 0, 0)].concat();
    assert!(disassemble_certificate(&odd, &[]).contains("record L 0 2 0 0"));
}

#[test]
fn limits_of_a_certificate_are_held() {
    let pairs = |count: usize| (0..count).map(|n| format!("pair {} {}\n", n / 32, n % 32)).collect::<String>();
    let component = |count: usize| format!("component\n{}", pairs(count));
    assert_eq!(assemble_certificate(&component(2_048), Mode::Strict).unwrap().len(), 8 + 2_048 * 8);
    refused_certificate(&component(2_049), 2_050, &["2048 pairs"]);
    let components = |count: usize| "component without weights\npair 0 0\n".repeat(count);
    assert_eq!(assemble_certificate(&components(1_536), Mode::Strict).unwrap().len(), 24_576);
    refused_certificate(&components(1_537), 3_073, &["24584 bytes", "24576"]);
}

/// Weights and marked weights rise each for themselves, and anew in every component.
#[test]
fn weights_rise_within_their_kind() {
    let component = "component\npair 0 0\nweight a = 1\nweight f = 1 + x1 + 0*x2\nmarked a = 1\nmarked f = 65535*x2\n";
    let text = format!("symbols a/0 f/2\n{}", component.repeat(2));
    assert_eq!(assemble_certificate(&text, Mode::Strict).unwrap().len(), 2 * 8 * 8);
}

// ---------------------------------------------------------------- what strict mode promises

/// A term that is often right: declared names, and mostly as many arguments as the arity.
fn some_term(random: &mut Random, depth: usize) -> String {
    let (name, arity) = *random.pick(&[("a", 0), ("b", 0), ("f", 1), ("g", 2), ("x", 0), ("y", 0), ("#1", 0)]);
    let name = if random.chance(2) { *random.pick(&["zer0", "@3", "#16", "@9", "symbols"]) } else { name };
    let count = if random.chance(2) { random.below(4) } else { arity };
    if count == 0 || depth > 6 {
        return name.to_string();
    }
    let arguments: Vec<String> = (0..count).map(|_| some_term(random, depth + 1)).collect();
    format!("{name}({})", arguments.join(", "))
}

/// Texts near the language's border, right and wrong ones.
fn some_pack_text(random: &mut Random) -> String {
    let mut text = String::from("symbols a/0 b/0 f/1 g/2\nvariables x y\n");
    for _ in 0..random.range(1, 3) {
        text += &match random.below(60) {
            0 => "symbols c/0\n".to_string(),
            1 => "record F 0 0 0 0\n".to_string(),
            2 => "variables z\n".to_string(),
            _ => format!("{} -> {}\n", some_term(random, 0), some_term(random, 0)),
        };
    }
    text
}

/// What strict mode assembles passes 1 to 6, is the same in loose mode, and its own text is strict.
#[test]
fn strict_packs_pass() {
    let mut random = Random::new(11);
    let mut assembled = 0;
    for _ in 0..30_000 {
        let text = some_pack_text(&mut random);
        let Ok(bytes) = assemble_pack(&text, Mode::Strict) else {
            continue;
        };
        assembled += 1;
        assert!(judge_pack(&bytes).is_ok(), "{text}");
        assert_eq!(loose_pack(&text), bytes, "{text}");
    }
    assert!(assembled > 1_000, "{assembled}");
}

/// A refusal by the whole pack's judgement would show that strict mode let something slip.
#[test]
fn strict_mode_refuses_by_line() {
    let mut random = Random::new(12);
    let mut refused = 0;
    for _ in 0..30_000 {
        let text = some_pack_text(&mut random);
        if let Err(why) = assemble_pack(&text, Mode::Strict) {
            refused += 1;
            assert!(why.starts_with("line ") && !why.contains("the pack is refused"), "{why}: {text}");
        }
    }
    assert!(refused > 1_000, "{refused}");
}

/// A certificate's text from lines that are often in order.
fn some_certificate_text(random: &mut Random) -> String {
    let mut text = String::from("symbols a/0 b/0 f/1 g/2\n");
    for _ in 0..random.range(1, 3) {
        let weighted = random.chance(70);
        text += if weighted { "component\n" } else { "component without weights\n" };
        let least = usize::from(random.chance(95));
        for place in 0..random.range(least, if weighted { 3 } else { 1 }) {
            text += &format!("pair 0 {}\n", if random.chance(3) { 0 } else { place });
        }
        text += &some_weights(random, weighted);
        let later = if weighted { *random.pick(&[0, 0, 0, 1, 2, 7, 8]) } else { usize::from(random.chance(3)) };
        for _ in 0..later {
            text += "weighting\n";
            if random.chance(30) {
                text += &some_weights(random, weighted);
            }
        }
    }
    text
}

/// The lines of one weighting.
fn some_weights(random: &mut Random, weighted: bool) -> String {
    let mut text = String::new();
    for kind in ["weight", "marked"] {
        for name in ["a", "b", "f", "@3"] {
            if random.chance(if weighted { 30 } else { 3 }) {
                let sum = random.pick(&["1", "x1", "2 + x1", "x1 + 3*x2", "x2", "0", "65535", "x2 + x1"]);
                text += &format!("{kind} {name} = {sum}\n");
            }
        }
    }
    text
}

/// What strict mode assembles is never refused with 1 or 2, and with 3 only for a marked constructor.
#[test]
fn strict_certificates_are_readable() {
    let pack = strict_pack("symbols a/0 b/0 f/1 g/2\nvariables x y\ng(x, y) -> g(g(a, f(x)), g(x, x))\nf(x) -> f(x)");
    let mut random = Random::new(13);
    let mut counts = [0; 18];
    for _ in 0..30_000 {
        let text = some_certificate_text(&mut random);
        let Ok(bytes) = assemble_certificate(&text, Mode::Strict) else {
            continue;
        };
        assert_eq!(assemble_certificate(&text, Mode::Loose).unwrap(), bytes, "{text}");
        let answer = checker::check(&pack, &bytes) as usize;
        counts[answer] += 1;
        let marks_constructor = text.contains("marked a") || text.contains("marked b");
        assert!(answer > 3 || answer == 0 || (answer == 3 && marks_constructor), "{answer}: {text}");
    }
    assert!(counts.iter().sum::<usize>() > 1_000 && counts[3] > 100, "{counts:?}");
}

// ---------------------------------------------------------------- loose mode

#[test]
fn loose_mode_bounds_its_counts() {
    let loose = |text: String, certificate: bool| {
        let assemble = if certificate { assemble_certificate } else { assemble_pack };
        assemble(&text, Mode::Loose)
    };
    let words = |count: usize, word: &str| vec![word; count].join(", ");
    let rules = |count: usize| format!("symbols a/0\n{}", "a -> a\n".repeat(count));
    assert!(loose(rules(65_535), false).is_ok());
    refused(loose(rules(70_000), false), "rules", 65_537, &["65535 rules"]);
    refused(loose("component\n".repeat(70_000), true), "components", 65_536, &["65535 components"]);
    let pairs = |count: usize| format!("component\n{}", "pair 0 0\n".repeat(count));
    assert_eq!(loose(pairs(65_535), true).unwrap()[..8], record(b'C', 0, 1, 65_535));
    refused(loose(pairs(70_000), true), "pairs", 65_537, &["65535 pairs"]);
    refused(loose(format!("symbols {}", "a/0 ".repeat(70_000)), false), "symbols", 1, &["65535 symbols"]);
    refused(loose(format!("symbols {}", "a/0 ".repeat(70_000)), true), "symbols", 1, &["65535 symbols"]);
    let side = |count: usize| format!("symbols f/0\nf({}) -> f", words(count - 1, "f"));
    assert_eq!(loose(side(65_535), false).unwrap()[8..16], record(b'R', 0, 65_535, 1));
    refused(loose(side(65_536), false), "nodes", 2, &["65535 nodes"]);
    let names = |from: usize, to: usize| (from..to).map(|n| format!("x{n}")).collect::<Vec<_>>().join(", ");
    let named = format!("symbols f/0\nf({}) -> f({})", names(0, 40_000), names(40_000, 80_000));
    refused(loose(named, false), "names", 2, &["more variables"]);
    let named = format!("symbols f/0\nf({}) -> f({})", names(0, 40_000), names(30_000, 65_000));
    assert_eq!(loose(named, false).unwrap()[24 + 39_999 * 8..][..8], record(b'V', 39_999, 0, 0));
}

#[test]
fn deep_texts_are_refused() {
    let nested = |count: usize| format!("symbols f/1 a/0\n{}a{} -> a", "f(".repeat(count), ")".repeat(count));
    refused_pack(&nested(100_000), 2, &["32 nodes"]);
    refused(assemble_pack(&nested(100_000), Mode::Loose), "loose", 2, &["deeper", "1000"]);
    refused(assemble_pack(&nested(DEPTH_LIMIT), Mode::Loose), "loose", 2, &["deeper"]);
    let deepest = loose_pack(&nested(DEPTH_LIMIT - 1));
    assert_eq!(assemble_pack(&disassemble_pack(&deepest), Mode::Loose).unwrap(), deepest);
    for mode in [Mode::Strict, Mode::Loose] {
        let parentheses = format!("symbols f/1\n{} -> f", "(".repeat(100_000));
        refused(assemble_pack(&parentheses, mode), "parentheses", 2, &["term is wanted"]);
    }
}

/// Files deeper than any text have a text too, by records.
#[test]
fn deep_files_have_a_text() {
    let mut file = [record(b'S', 0, 1, 0), record(b'R', 0, 60_000, 1)].concat();
    file.extend(record(b'F', 0, 0, 0).repeat(59_999));
    file.extend(record(b'V', 0, 0, 0).repeat(2));
    let text = disassemble_pack(&file);
    assert!(text.contains("record"));
    assert_eq!(loose_pack(&text), file);
}

#[test]
fn loose_mode_takes_any_order() {
    let pack = loose_pack("symbols a/9 a/0\nvariables a x x\nx -> b\nsymbols c/0\n@70(c, x) -> #99\nbytes 1 2");
    assert_eq!(pack.len(), 3 * 8 + 3 * 8 + 5 * 8 + 2);
    let text = "weight @9 = x9 + 1\ncomponent without weights\nmarked @1 = x0\npair 5 5\npair 0 0\n";
    let text = &format!("{text}component\nrecord P 1 2 3 4");
    assert_eq!(assemble_certificate(text, Mode::Loose).unwrap().len(), 2 * 8 + 8 + 8 + 2 * 8 + 8 + 8);
    assert!(assemble_certificate("record P 0 0 0", Mode::Loose).unwrap_err().contains("four numbers"));
    assert!(assemble_pack("bytes 256", Mode::Loose).unwrap_err().contains("255"));
}

/// Odd characters are answered, whatever they are.
#[test]
fn any_text_is_answered() {
    let pieces = [
        "symbols",
        "variables",
        "f/1",
        "f",
        "(",
        ")",
        ",",
        "->",
        "x",
        "#",
        "@",
        "/",
        "=",
        "+",
        "*",
        "\0",
        "\u{feff}",
        "\u{e9}",
        "\u{1f600}",
        "\u{2028}",
        "\u{0661}",
        "\r",
        "\n",
        "\n",
        " ",
        "component",
        "pair",
        "weight",
        "marked",
        "record",
        "bytes",
        "0",
        "65536",
        "x1",
        ";",
        "without weights",
        "weighting",
        "\u{301}",
    ];
    let mut random = Random::new(17);
    for _ in 0..20_000 {
        let mut text = String::new();
        for _ in 0..random.below(30) {
            text += *random.pick::<&str>(&pieces);
            text += if random.chance(50) { " " } else { "" };
        }
        for mode in [Mode::Strict, Mode::Loose] {
            for answer in [assemble_pack(&text, mode), assemble_certificate(&text, mode)] {
                let why = answer.err().unwrap_or("line ".into());
                assert!(why.starts_with("line ") && !why.contains(['\n', '\r', '\0']), "{why:?}: {text:?}");
            }
        }
    }
    refused_pack("symbols f/1\nf(\u{e9}\u{1f600}) -> f", 2, &["\u{e9}"]);
    refused_pack("symbols f\0/1", 1, &["\\0"]);
}

// ---------------------------------------------------------------- disassembling

fn gives_back(text: &str, bytes: &[u8], what: &str) {
    let assemble = if what == "pack" { assemble_pack } else { assemble_certificate };
    assert_eq!(assemble(text, mode_of(text)).expect(what), bytes, "{what}: {text}");
    // A text is marked as loose only where strict mode would not do.
    if mode_of(text) == Mode::Loose {
        assert_ne!(assemble(text, Mode::Strict).ok().as_deref(), Some(bytes), "{what}: {text}");
    }
}

/// Any file's text gives back its bytes, damaged ones too; files that pass have strict texts.
#[test]
fn texts_give_back_the_bytes() {
    for seed in 0..2_000 {
        let case = case(seed);
        let pack = disassemble_pack(&case.pack);
        gives_back(&pack, &case.pack, "pack");
        assert_eq!(mode_of(&pack) == Mode::Strict, judge_pack(&case.pack).is_ok(), "seed {seed}");
        let named = disassemble_certificate(&case.certificate, &case.pack);
        gives_back(&named, &case.certificate, "certificate");
        // From 8 on the whole certificate has been read.
        let answer = checker::check(&case.pack, &case.certificate);
        if answer == 0 || answer >= checker::PAIR_COUNT {
            assert_eq!(mode_of(&named), Mode::Strict, "seed {seed}");
        }
        gives_back(&disassemble_certificate(&case.certificate, &[]), &case.certificate, "bare certificate");
    }
}

/// Bytes that are hardly records at all have a text as well.
#[test]
fn damaged_bytes_have_a_text() {
    let mut random = Random::new(21);
    for seed in 0..2_000 {
        let mut file: Vec<u8> = case(seed).pack.into_iter().take(200).collect();
        spoil::damage(&mut random, &mut file);
        gives_back(&disassemble_pack(&file), &file, "pack");
        gives_back(&disassemble_certificate(&file, &file), &file, "certificate");
    }
}

/// Valid files are shown as terms and weights, in strict text.
#[test]
fn valid_files_are_readable() {
    let small = (0..200).map(|seed| guided(&mut Random::new(seed), Size::Small));
    for base in small.chain([dense(&mut Random::new(3), 1)]) {
        let (pack, certificate) = (pack_bytes(&base.pack), certificate_bytes(&base.components));
        for text in [disassemble_pack(&pack), disassemble_certificate(&certificate, &pack)] {
            assert!(mode_of(&text) == Mode::Strict && !text.contains("record"), "{text}");
        }
        assert!(!disassemble_certificate(&certificate, &[]).contains("record"));
    }
}

/// Between strict text and records stand loose terms.
#[test]
fn wrong_packs_are_shown_as_loose_terms() {
    let bytes = loose_pack("symbols f/1\nf(x) -> y");
    assert_eq!(disassemble_pack(&bytes), format!("{LOOSE_NOTE}\nsymbols f0/1\nvariables x y\nf0(x) -> y\n"));
    let broken = loose_pack("symbols f/2 a/0\nf(a) -> a(a)");
    assert!(disassemble_pack(&broken).starts_with(&format!("{LOOSE_NOTE}\n; record by record")));
    assert_eq!(disassemble_pack(&[]), "");
}

/// Every shipped text is in the mode that `loose.txt` gives it.
#[test]
fn examples_have_their_modes() {
    let folder = Path::new(env!("CARGO_MANIFEST_DIR")).join("../examples");
    let loose = std::fs::read_to_string(folder.join("loose.txt")).unwrap();
    let loose: Vec<&str> = loose.lines().filter(|line| !line.starts_with(';')).collect();
    let mut seen = 0;
    for entry in std::fs::read_dir(&folder).unwrap() {
        let name = entry.unwrap().file_name().into_string().unwrap();
        let assemble = match name.strip_suffix(".txt").and_then(|file| file.rsplit_once('.')) {
            Some((_, "pack")) => assemble_pack,
            Some((_, "cert")) => assemble_certificate,
            _ => continue,
        };
        let text = std::fs::read_to_string(folder.join(&name)).unwrap();
        assert_eq!(assemble(&text, Mode::Strict).is_err(), loose.contains(&name.as_str()), "{name}");
        assert!(assemble(&text, Mode::Loose).is_ok(), "{name}");
        seen += usize::from(loose.contains(&name.as_str()));
    }
    assert_eq!(seen, loose.len());
}

/// A count that does not fit a field is never another number.
#[test]
fn counts_do_not_wrap() {
    let wide = checker::Term::Apply(0, vec![checker::Term::Variable(0); 65_536]);
    let rule = checker::Rule { left: wide.clone(), right: wide };
    assert!(std::panic::catch_unwind(|| encode::rule_bytes(0, &rule)).is_err());
}
