//! The solvers' texts that cost most: nested as deep as can be, many names to look up; and ordinary ones beside them.

use crate::checker::{NODE_LIMIT, RULE_LIMIT, SYMBOL_LIMIT};
use crate::solver_text::TEXT_LIMIT;

/// The bytes that names are made of, as many as there are.
pub const NAME_BYTES: &[u8; 64] = b"abcdefghijklmnopqrstuvwxyzABCDEFGHIJKLMNOPQRSTUVWXYZ0123456789_'";

/// How many names the library's table holds (`MOST_KEPT` of crates/text_names), and 388 more, so that questions times
/// names left over is greatest.
const OVERFULL: usize = 8_448 + 388;

/// So many names, all different, of that length or of the least that suffices.
pub fn distinct(count: usize, length: usize) -> Vec<String> {
    (0..count).map(|number| numbered_name(number, length)).collect()
}

/// The digits of a number in base 64, the lowest first, so that names differ from their first byte on.
fn numbered_name(mut number: usize, length: usize) -> String {
    let mut name = String::new();
    while name.len() < length || number > 0 {
        name.push(char::from(NAME_BYTES[number % NAME_BYTES.len()]));
        number /= NAME_BYTES.len();
    }
    name
}

/// With blanks after it up to that length, if it is shorter.
pub fn padded(mut text: Vec<u8>, length: usize) -> Vec<u8> {
    text.resize(length.max(text.len()), b' ');
    text
}

// ---------------------------------------------------------------- depth

/// Where a text is nested.
#[derive(Clone, Copy, Debug, PartialEq, Eq)]
pub enum Side {
    Left,
    Right,
}

/// One side nested as deep as that many bytes allow, all lists closed.
pub fn closed(side: Side, opening: &str, length: usize) -> Vec<u8> {
    let depth = length.saturating_sub(22) / (opening.len() + 1);
    let nest = format!("{}a{}", opening.repeat(depth), ")".repeat(depth));
    let rule = if side == Side::Left { format!("{nest} -> a") } else { format!("a -> {nest}") };
    padded(format!("(VAR)(RULES {rule})").into_bytes(), length)
}

/// The same without an end.
pub fn unclosed(side: Side, opening: &str, length: usize) -> Vec<u8> {
    let start = if side == Side::Left { "(VAR)(RULES " } else { "(VAR)(RULES a -> " };
    let depth = length.saturating_sub(start.len()) / opening.len();
    padded(format!("{start}{}", opening.repeat(depth)).into_bytes(), length)
}

/// As many rules as can be, both sides nested as deep as a pack allows.
pub fn deep_rules() -> Vec<u8> {
    let depth = usize::from(NODE_LIMIT) - 1;
    let side = format!("{}x{}", "f(".repeat(depth), ")".repeat(depth));
    format!("(VAR x)(RULES {})", format!("{side} -> {side}\n").repeat(RULE_LIMIT)).into_bytes()
}

/// Texts that are nested deep, and their names; nothing is longer than a text may be.
pub fn deep() -> Vec<(String, Vec<u8>)> {
    let mut all = vec![("32 deep on both sides".to_string(), deep_rules())];
    for side in [Side::Left, Side::Right] {
        for opening in ["a(", "a(b,", "a( "] {
            all.push((format!("{opening:?} nested, closed, {side:?}"), closed(side, opening, TEXT_LIMIT)));
            all.push((format!("{opening:?} nested, unclosed, {side:?}"), unclosed(side, opening, TEXT_LIMIT)));
        }
    }
    all
}

// ---------------------------------------------------------------- names

/// A text whose VAR section has these names and whose one rule has these constants, as many as fit.
pub fn lookups(variables: &[String], constants: &[String], length: usize) -> Vec<u8> {
    let end = b"->a)";
    let mut text = format!("(VAR {})(RULES f(", variables.join(" ")).into_bytes();
    for name in constants {
        if text.len() + name.len() + 3 + end.len() > length {
            break;
        }
        text.extend(name.bytes().chain(*b"(),"));
    }
    // The last comma gives way to the list's end.
    text.pop();
    text.push(b')');
    text.extend(end);
    padded(text, length)
}

/// As many variables as fit, all different, and no rule; in falling order each goes before all others of a sorted table.
pub fn long_var(length: usize, falling: bool) -> Vec<u8> {
    let mut left = length.saturating_sub("(VAR)(RULES)".len());
    let mut names: Vec<String> = distinct(length, 1)
        .into_iter()
        .take_while(|name| {
            let fits = name.len() < left;
            left = left.saturating_sub(name.len() + 1);
            fits
        })
        .collect();
    if falling {
        names.sort_unstable_by(|one, other| other.cmp(one));
    }
    padded(format!("(VAR {})(RULES)", names.join(" ")).into_bytes(), length)
}

/// Texts with many names to look up: what they are called, and they.
pub fn many_names() -> Vec<(&'static str, Vec<u8>)> {
    let (half, most) = (TEXT_LIMIT / 2, TEXT_LIMIT);
    let (variables, others) = (half / 4, half / 6);
    let apart = |count: usize, from: usize| distinct(from + count, 3).split_off(from);
    let alike = |count: usize, first: char| {
        distinct(count, 2).into_iter().map(|end| format!("{first}{:~>21}{end}", "").replace('~', "x")).collect()
    };
    let long: (Vec<String>, Vec<String>) = (alike(half / 25, 'x'), alike(half / 27, 'y'));
    vec![
        ("all different in VAR", long_var(most, false)),
        ("the same, falling", long_var(most, true)),
        ("VAR against others", lookups(&apart(variables, 0), &apart(others, variables), most)),
        ("VAR against one other", lookups(&apart(variables, 0), &vec!["zzz".to_string(); others], most)),
        ("long, their ends differ", lookups(&long.0, &long.1, most)),
        ("one again and again", lookups(&vec!["x".to_string(); half / 2], &vec!["y".to_string(); half / 4], most)),
    ]
}

/// More names than the library's table holds, falling, and `a` none of them.
pub fn overfull_names() -> Vec<String> {
    let mut names = distinct(OVERFULL + 1, 1).split_off(1);
    names.sort_unstable_by(|one, other| other.cmp(one));
    names
}

/// These in VAR, and then `a` before parentheses, unclosed: each time the names left over are looked through.
pub fn overfull() -> Vec<u8> {
    let mut text = format!("(VAR {})(RULES ", overfull_names().join(" ")).into_bytes();
    while text.len() + 2 <= TEXT_LIMIT {
        text.extend(b"a(");
    }
    text
}

// ---------------------------------------------------------------- ordinary ones

/// A text within all limits and nearly as long as can be, with so many names in VAR.
pub fn ordinary(variables: usize) -> Vec<u8> {
    // Many names take room themselves, so they are short.
    let stem = if variables > 16 { "x" } else { "value" };
    let variables: Vec<String> = (0..variables.max(4)).map(|number| format!("{stem}{number}")).collect();
    let rules: Vec<String> = (0..RULE_LIMIT).map(|rule| ordinary_rule(rule, &variables)).collect();
    let text = format!("(VAR {})\n(RULES\n{})\n", variables.join(" "), rules.concat());
    assert!(text.len() <= TEXT_LIMIT, "an ordinary text of {} bytes", text.len());
    text.into_bytes()
}

/// Both sides with as many nodes as can be: a sum of seven terms.
fn ordinary_rule(rule: usize, variables: &[String]) -> String {
    let name = |number: usize| format!("op{}", (rule + number) % (SYMBOL_LIMIT / 4));
    let variable = |number: usize| &variables[(rule * 3 + number % 4) % variables.len()];
    let summand = |number: usize| format!("after(after({}))", variable(number));
    let side = |start: usize| {
        let sum =
            (1..7).fold(summand(start), |sum, number| format!("addition{}({sum}, {})", rule % 8, summand(number)));
        format!("{}({sum}, after(after(after(zero))))", name(start))
    };
    format!("  {} -> {}\n", side(0), side(1))
}

/// A little text as people write them.
pub const SMALL: &str = include_str!("../../examples/division.trs");
