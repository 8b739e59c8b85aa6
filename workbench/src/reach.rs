//! Document 01's own arcs, in whose place document 02's N4 puts others: to count the answers that hang on a unifier, and
//! to test that it only takes arcs away. No implementation is held to them.

use crate::checker::{check_by, is_defined, variables, Pack, Term};

/// The check with these arcs.
pub fn check_by_reach(pack: &[u8], certificate: &[u8]) -> u32 {
    check_by(arc_by_reach, pack, certificate)
}

/// "the root of p's right is the root of q's left and each argument of the one *may become* the argument at the same position of the other"
pub fn arc_by_reach(pack: &Pack, right: &Term, left: &Term) -> bool {
    match (right, left) {
        (Term::Apply(f, from), Term::Apply(g, to)) => f == g && all_may_become(pack, from, to),
        _ => false,
    }
}

/// "each argument of u may become that of v"
fn all_may_become(pack: &Pack, from: &[Term], to: &[Term]) -> bool {
    from.iter().zip(to).all(|(u, v)| may_become(pack, u, v))
}

/// "u or v is a variable, or u's root is defined, or both have one root symbol and each argument of u may become that of v"
fn may_become(pack: &Pack, u: &Term, v: &Term) -> bool {
    match (u, v) {
        (Term::Variable(_), _) | (_, Term::Variable(_)) => true,
        (Term::Apply(f, from), Term::Apply(g, to)) => {
            is_defined(pack, *f) || (f == g && all_may_become(pack, from, to))
        }
    }
}

/// Does a left side have a variable twice? Only then a unifier can be missing where these arcs run.
pub fn has_repeated_variable(pack: &Pack) -> bool {
    pack.rules.iter().any(|rule| repeats(&rule.left))
}

fn repeats(left: &Term) -> bool {
    let mut all = variables(left);
    let count = all.len();
    all.sort_unstable();
    all.dedup();
    all.len() < count
}
