//! The plain reader of solvers' texts, held to document 02's sentences one by one.

use workbench::checker::{check, judge_pack, NO_SUCH_PAIR};
use workbench::encode::{self, record};
use workbench::generate::case;
use workbench::generate::packs::{guided, Size};
use workbench::random::Random;
use workbench::renumber::{certificate, renumbered};
use workbench::slow_texts::{self, Side};
use workbench::solver_text::{read_named, read_text, OUTSIDE_GRAMMAR, OVER_LIMITS, SHORT_BUFFER, TEXT_LIMIT};
use workbench::text::{assemble_pack, disassemble_pack, solver_text, Mode};

const ENOUGH: usize = 1 << 20;

fn read(text: &str) -> Result<Vec<u8>, u32> {
    read_text(text.as_bytes(), ENOUGH)
}

/// The pack of a text that has these rules and one variable, x.
fn rules(rules: &str) -> Result<Vec<u8>, u32> {
    read(&format!("(VAR x)(RULES {rules})"))
}

fn outside(texts: &[&str]) {
    for text in texts {
        assert_eq!(read(text), Err(OUTSIDE_GRAMMAR), "{text:?}");
    }
}

fn same_pack(one: &str, others: &[&str]) {
    for other in others {
        assert_eq!(read(one).unwrap(), read(other).unwrap(), "{other:?}");
    }
}

// ---------------------------------------------------------------- the grammar

/// "`(VAR` names `)`, then `(RULES` rules `)`, names or rules perhaps none, .. nothing else"
#[test]
fn two_sections_and_nothing_else() {
    assert_eq!(read("(VAR)(RULES)"), Ok(vec![]));
    assert_eq!(read("(VAR x y)(RULES)"), Ok(vec![]));
    outside(&[
        "",
        " ",
        "(VAR)",
        "(RULES)",
        "(RULES)(VAR)",
        "(VAR)(RULES",
        "(VAR)(RULES))",
        "(VAR)(RULES)a",
        "()(RULES)",
    ]);
    outside(&[
        "(VAR)(RULES)(COMMENT a)",
        "(COMMENT)(VAR)(RULES)",
        "(VAR)(STRATEGY INNERMOST)(RULES)",
        "(VAR)(VAR)(RULES)",
    ]);
    outside(&[
        "(VAR x,y)(RULES)",
        "(VAR (x))(RULES)",
        "(VAR x()) (RULES)",
        "(VAR ->)(RULES)",
        "VAR)(RULES)",
        "(VAR)RULES)",
    ]);
}

/// "a rule being term `->` term"
#[test]
fn a_rule_is_two_terms() {
    assert_eq!(rules("a -> a").unwrap().len(), 4 * 8);
    assert!(rules("a -> b c -> d").is_ok() && rules("a->b c->d").is_ok() && rules("a->b()c->d").is_ok());
    for wrong in
        ["a", "a ->", "-> a", "a -> b -> c", "a b", "a -> b c", "a => b", "a ->= b", "a - > b", "a - b", "a > b"]
    {
        assert_eq!(rules(wrong), Err(OUTSIDE_GRAMMAR), "{wrong}");
    }
    for wrong in ["a -> b, c -> d", "(a -> b)", "(a) -> b", "a -> b | c -> d", "a -> b;", "a -> b -"] {
        assert_eq!(rules(wrong), Err(OUTSIDE_GRAMMAR), "{wrong}");
    }
}

/// "a term is a name with an argument list, and an argument list is terms parted by commas"
#[test]
fn a_term_is_a_name_and_a_list() {
    assert!(rules("f(a, g(x, x), b) -> h(h(h(x)))").is_ok());
    for wrong in ["f(a,) -> a", "f(,a) -> a", "f(a a) -> a", "f(a,,a) -> a", "f(a -> a", "f a) -> a", "f(a)) -> a"] {
        assert_eq!(rules(wrong), Err(OUTSIDE_GRAMMAR), "{wrong}");
    }
    for wrong in ["f(a)(b) -> a", "f((a)) -> a", "f(->) -> a", "f(a -> a) -> a", "f()() -> a", "f(,) -> a", "() -> a"] {
        assert_eq!(rules(wrong), Err(OUTSIDE_GRAMMAR), "{wrong}");
    }
}

/// "`a` and `a()` are the same constant"
#[test]
fn empty_lists_make_no_difference() {
    same_pack("(VAR)(RULES a -> f(a, a))", &["(VAR)(RULES a() -> f(a, a( )))", "(VAR)(RULES a -> f(a ( ), a))"]);
}

/// "Names have 1 to 24 ASCII letters, digits, underscores or apostrophes, as many as stand together"
#[test]
fn names_have_their_bytes_and_lengths() {
    let all = "abcdefghijklmnopqrstuvwx yzABCDEFGHIJKLMNOPQRSTU VWXYZ0123456789_' 0 ' _ 00 x'";
    for name in all.split(' ') {
        assert!(read(&format!("(VAR {name})(RULES f({name}) -> {name})")).is_ok(), "{name}");
        assert!(rules(&format!("{name} -> {name}")).is_ok(), "{name}");
    }
    let long = "n".repeat(25);
    outside(&[&format!("(VAR {long})(RULES)"), &format!("(VAR)(RULES {long} -> a)"), &format!("(VAR{long})(RULES)")]);
    for byte in 0..=255_u8 {
        let of_name = byte.is_ascii_alphanumeric() || b"_'".contains(&byte);
        let text = [b"(VAR)(RULES a".as_slice(), &[byte], b"b -> c)"].concat();
        assert_eq!(read_text(&text, ENOUGH).is_ok(), of_name, "{byte}");
    }
    // "_" and "'" are bytes like any other: none of these names is another one.
    assert_eq!(rules("a -> a'").unwrap().len(), 5 * 8);
    assert_eq!(rules("a -> A").unwrap().len(), 5 * 8);
}

/// "spaces, tabs and line ends (bytes 10, 13) may stand anywhere but inside a name or `->`"
#[test]
fn blanks_stand_between_words() {
    let odd = "\r\n\t (\tVAR\rx\ny )\n(\r\nRULES\tf\t(\nx\r,\ty )\n->\rx\t) \r\n";
    same_pack("(VAR x y)(RULES f(x,y)->x)", &[odd]);
    outside(&["(VAR)(RUL ES)", "(V AR)(RULES)", "(VAR)(RULES a - > b)", "(VAR)(RULES a -\n> b)"]);
    for byte in 0..=255_u8 {
        let text = [&[byte], b"(VAR)(RULES)".as_slice()].concat();
        assert_eq!(read_text(&text, ENOUGH).is_ok(), [9, 10, 13, 32].contains(&byte), "{byte}");
        let text = [b"(VAR)(RULES)".as_slice(), &[byte]].concat();
        assert_eq!(read_text(&text, ENOUGH).is_ok(), [9, 10, 13, 32].contains(&byte), "{byte}");
    }
}

/// "VAR and RULES are read as names are"
#[test]
fn the_sections_words_are_names_elsewhere() {
    outside(&["(VARx)(RULES)", "(VAR)(RULESa -> b)", "(var)(RULES)", "(VAR)(rules)", "(VAR')(RULES)", "(VAR)(VAR)"]);
    assert!(read("( VAR VAR RULES)(\nRULES f(VAR, RULES) -> VAR)").is_ok());
    assert_eq!(read("(VAR)(RULES RULES(VAR) -> VAR)").unwrap().len(), 2 * 8 + 8 + 3 * 8);
    outside(&["(VAR VAR)(RULES VAR() -> a)"]);
}

/// "A variable takes no argument list, not even `()`; VAR may name one twice."
#[test]
fn variables_have_no_lists() {
    outside(&["(VAR x)(RULES f(x()) -> a)", "(VAR x)(RULES x(a) -> a)", "(VAR y x)(RULES a -> b c -> f(a,x( )))"]);
    same_pack("(VAR x)(RULES f(x) -> x)", &["(VAR x x)(RULES f(x) -> x)", "(VAR x y x z x)(RULES f(x)->x)"]);
}

// ---------------------------------------------------------------- the pack

/// "Symbols are numbered by first appearance in RULES, variables by first appearance within the rule."
#[test]
fn numbers_go_by_first_appearance() {
    let pack = read("(VAR y x)(RULES f(x, y) -> g(y) g(y) -> h(a, f(b, y)))").unwrap();
    let symbols = [2, 1, 2, 0, 0].iter().zip(0..).flat_map(|(arity, number)| record(b'S', number, *arity, 0));
    let node = |kind: u8, numbers: &[u16]| -> Vec<u8> { numbers.iter().flat_map(|n| record(kind, *n, 0, 0)).collect() };
    let first =
        [record(b'R', 0, 3, 2).to_vec(), node(b'F', &[0]), node(b'V', &[0, 1]), node(b'F', &[1]), node(b'V', &[1])];
    let second = [
        record(b'R', 1, 2, 5).to_vec(),
        node(b'F', &[1]),
        node(b'V', &[0]),
        node(b'F', &[2, 3, 0, 4]),
        node(b'V', &[0]),
    ];
    assert_eq!(pack, symbols.chain(first.concat()).chain(second.concat()).collect::<Vec<u8>>());
}

/// Document 01's Division has 296 bytes, whatever the order of its symbols.
#[test]
fn division_is_read() {
    let pack = read_named(slow_texts::SMALL.as_bytes()).unwrap();
    assert_eq!(pack.bytes.len(), 296);
    let names: Vec<String> = pack.symbols.iter().map(|(name, arity)| format!("{name}/{arity}")).collect();
    assert_eq!(names, ["minus/2", "zero/0", "s/1", "quot/2"]);
    assert!(disassemble_pack(&pack.bytes).ends_with("f3(c2(x), c2(y)) -> c2(f3(f0(x, y), c2(y)))\n"));
}

/// "5 and 6 are left to the entries that read it."
#[test]
fn bare_lefts_and_loose_variables_are_read() {
    assert_eq!(
        rules("x -> x").unwrap(),
        [record(b'R', 0, 1, 1), record(b'V', 0, 0, 0), record(b'V', 0, 0, 0)].concat()
    );
    assert!(rules("a -> x").is_ok());
}

// ---------------------------------------------------------------- refusals

/// "or a count over 01's limits, a 17th variable in a rule too"
#[test]
fn limits_are_the_packs() {
    let symbols = |count: usize| (0..count).map(|n| format!("s{n} -> s0 ")).collect::<String>();
    assert!(rules(&symbols(64)).is_ok());
    assert_eq!(rules(&format!("{} f(s64) -> a", symbols(62))).unwrap_err(), OVER_LIMITS);
    assert_eq!(rules(&"a -> a ".repeat(64)).unwrap().len(), 8 + 64 * 24);
    assert_eq!(rules(&"a -> a ".repeat(65)), Err(OVER_LIMITS));
    let chain = |nodes: usize| format!("{}x{}", "f(".repeat(nodes - 1), ")".repeat(nodes - 1));
    assert!(rules(&format!("{} -> {}", chain(32), chain(32))).is_ok());
    assert_eq!(rules(&format!("{} -> x", chain(33))), Err(OVER_LIMITS));
    assert_eq!(rules(&format!("x -> {}", chain(33))), Err(OVER_LIMITS));
    let wide = |count: usize| format!("f({}) -> a", vec!["a"; count].join(","));
    assert!(rules(&wide(8)).is_ok());
    assert_eq!(rules(&wide(9)), Err(OVER_LIMITS));
}

#[test]
fn a_rule_has_sixteen_variables() {
    let names: Vec<String> = (0..17).map(|n| format!("x{n}")).collect();
    let list = |names: &[String]| format!("f({})", names.join(","));
    let text = |left: &str, right: &str| read(&format!("(VAR {})(RULES {left} -> {right})", names.join(" ")));
    assert!(text(&list(&names[..8]), &list(&names[8..16])).is_ok());
    assert!(text(&list(&names[..8]), &format!("g({},{})", list(&names[8..16]), names[0])).is_ok());
    assert_eq!(text(&list(&names[..8]), &format!("g({},{})", list(&names[8..16]), names[16])), Err(OVER_LIMITS));
    // Many names in VAR are no matter.
    assert!(text("a", "a").is_ok());
}

/// "16 for a name used with two arities"
#[test]
fn a_name_has_one_arity() {
    for wrong in ["f(a) -> f", "f() -> f(x)", "f(f) -> a", "f(a,a) -> a a -> f(a)", "a -> g(f(a), f(a,a))"] {
        assert_eq!(rules(wrong), Err(OVER_LIMITS), "{wrong}");
    }
}

/// "15 .., then 16 .., then 14 for a short buffer"
#[test]
fn refusals_have_an_order() {
    assert_eq!(rules("f(a) -> f )"), Err(OUTSIDE_GRAMMAR));
    assert_eq!(read("(VAR x)(RULES f(a) -> f b -> x())"), Err(OUTSIDE_GRAMMAR));
    assert_eq!(read_text(b"(VAR)(RULES f(a) -> f)", 0), Err(OVER_LIMITS));
    let division = slow_texts::SMALL.as_bytes();
    assert_eq!(read_text(division, 295), Err(SHORT_BUFFER));
    assert_eq!(read_text(division, 296).unwrap().len(), 296);
    assert_eq!(read_text(b"(VAR)(RULES)", 0), Ok(vec![]));
}

/// "or over 32,768 bytes"
#[test]
fn a_text_has_a_greatest_length() {
    let text = |length: usize| slow_texts::padded(slow_texts::SMALL.as_bytes().to_vec(), length);
    assert!(read_text(&text(TEXT_LIMIT), ENOUGH).is_ok());
    assert_eq!(read_text(&text(TEXT_LIMIT + 1), ENOUGH), Err(OUTSIDE_GRAMMAR));
}

// ---------------------------------------------------------------- from packs to texts

/// A pack printed as a solver's text gives that pack again, numbered by first appearance.
#[test]
fn packs_come_back_renumbered() {
    let numbered: Vec<String> = (0..16).map(|number| format!("v{number}")).collect();
    for seed in 0..400 {
        let pack = guided(&mut Random::new(seed), if seed % 2 == 0 { Size::Small } else { Size::Typical }).pack;
        // Variables that are not numbered by appearance have no names in a disassembly.
        let text = disassemble_pack(&encode::pack_bytes(&pack)).replace('#', "v");
        let text = solver_text(&format!("variables {}\n{text}", numbered.join(" "))).unwrap();
        assert_eq!(read(&text), Ok(encode::pack_bytes(&renumbered(&pack).pack)), "{text}");
    }
}

/// A certificate renumbered as its pack gets the same answer, if the answer does not hang on one record's place.
#[test]
fn renumbered_certificates_are_answered_alike() {
    let mut seen = 0;
    for case in (0..2_000).map(case) {
        let Some(renumbered) = judge_pack(&case.pack).ok().map(|pack| renumbered(&pack)) else {
            continue;
        };
        let answer = check(&case.pack, &case.certificate);
        let all_kept = renumbered.symbols.iter().all(Option::is_some);
        if all_kept && (answer == 0 || answer >= NO_SUCH_PAIR) {
            let certificate = certificate(&case.certificate, &renumbered.symbols).unwrap();
            assert_eq!(check(&encode::pack_bytes(&renumbered.pack), &certificate), answer);
            seen += 1;
        }
    }
    assert!(seen > 300, "{seen}");
}

#[test]
fn dropped_symbols_take_their_weights_along() {
    let pack = assemble_pack("symbols zero/0 s/1 f/1\nvariables x\nf(x) -> x", Mode::Strict).unwrap();
    let symbols = renumbered(&judge_pack(&pack).unwrap()).symbols;
    assert_eq!(symbols, [None, None, Some(0)]);
    let weights =
        |kind: u8, symbols: &[u16]| -> Vec<u8> { symbols.iter().flat_map(|n| record(kind, *n, 0, 1)).collect() };
    assert_eq!(certificate(&weights(b'W', &[0, 2, 5]), &symbols), Some(weights(b'W', &[0, 5])));
    assert_eq!(certificate(&weights(b'M', &[0, 2]), &symbols), None);
}

#[test]
fn only_names_have_a_solvers_text() {
    assert_eq!(solver_text("; none").unwrap(), "(VAR)\n(RULES\n)\n");
    assert!(solver_text("symbols f/1\nf(#0) -> #0").unwrap_err().starts_with("line 2: "));
}

// ---------------------------------------------------------------- hostile texts, and those of the benchmark

#[test]
fn hostile_texts_are_answered() {
    for side in [Side::Left, Side::Right] {
        assert_eq!(read_text(&slow_texts::closed(side, "a(", TEXT_LIMIT), ENOUGH), Err(OVER_LIMITS));
        assert_eq!(read_text(&slow_texts::unclosed(side, "a(", TEXT_LIMIT), ENOUGH), Err(OUTSIDE_GRAMMAR));
    }
    assert_eq!(read_text(&slow_texts::long_var(TEXT_LIMIT, true), ENOUGH), Ok(vec![]));
    for (name, text) in slow_texts::deep() {
        assert!(text.len() <= TEXT_LIMIT, "{name}");
    }
    for (name, text) in slow_texts::many_names() {
        assert_eq!(text.len(), TEXT_LIMIT, "{name}");
        // Those without rules pass.
        let wanted = if text.trim_ascii_end().ends_with(b")(RULES)") { 0 } else { OVER_LIMITS };
        assert_eq!(read_text(&text, ENOUGH).err().unwrap_or(0), wanted, "{name}");
    }
    assert_eq!(read_text(&slow_texts::overfull(), ENOUGH), Err(OUTSIDE_GRAMMAR));
    assert!(read_text(&slow_texts::deep_rules(), ENOUGH).is_ok());
}

#[test]
fn ordinary_texts_are_good() {
    for variables in [4, 300] {
        let text = slow_texts::ordinary(variables);
        assert!((28_000..=TEXT_LIMIT).contains(&text.len()), "{}", text.len());
        assert!(read_text(&text, ENOUGH).is_ok_and(|pack| pack.len() > 30_000));
    }
}

/// Each answer comes often enough among the generator's texts.
#[test]
fn generated_texts_meet_each_answer() {
    let mut counts = [0; 17];
    for question in (0..2_000).flat_map(|seed| case(seed).texts) {
        let number = read_text(&question.text, question.room).err().unwrap_or(0);
        counts[number as usize] += 1;
    }
    let all: usize = counts.iter().sum();
    for number in [0, 14, 15, 16] {
        assert!(counts[number] * 10 > all, "{number}: {} of {all}", counts[number]);
    }
}
