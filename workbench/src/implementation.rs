//! The four questions, whoever answers them.

use crate::{checker, encode, solver_text, tuned};

/// One implementation of the loader.
pub trait Implementation {
    fn name(&self) -> &'static str;
    /// 0 for accepted, else the number of the refusal.
    fn check(&self, pack: &[u8], certificate: &[u8]) -> u32;
    /// Number and count; fills the lent list only if the number is 0.
    fn list(&self, pack: &[u8], list: &mut [u8]) -> (u32, u32);
    /// Number, and 1 for yes; the question is rule, place, other rule, other place.
    fn arc(&self, pack: &[u8], question: [u32; 4]) -> (u32, u32);
    /// Number and length of the solver's text's pack; fills the lent buffer only if the number is 0. None by default:
    /// not all of them read texts.
    fn read_text(&self, _text: &[u8], _pack: &mut [u8]) -> Option<(u32, u32)> {
        None
    }
}

/// The plain checker of `checker.rs`, and the plain reader of `solver_text.rs`.
pub struct Checker;

impl Implementation for Checker {
    fn name(&self) -> &'static str {
        "checker"
    }

    fn check(&self, pack: &[u8], certificate: &[u8]) -> u32 {
        checker::check(pack, certificate)
    }

    fn list(&self, pack: &[u8], list: &mut [u8]) -> (u32, u32) {
        match checker::list(pack, list.len()) {
            Ok(pairs) => {
                let bytes = encode::list_bytes(&pairs);
                list[..bytes.len()].copy_from_slice(&bytes);
                (0, pairs.len() as u32)
            }
            Err(number) => (number, 0),
        }
    }

    fn arc(&self, pack: &[u8], question: [u32; 4]) -> (u32, u32) {
        let [rule, place, other_rule, other_place] = question;
        match checker::arc(pack, rule, place, other_rule, other_place) {
            Ok(yes) => (0, u32::from(yes)),
            Err(number) => (number, 0),
        }
    }

    fn read_text(&self, text: &[u8], pack: &mut [u8]) -> Option<(u32, u32)> {
        Some(match solver_text::read_text(text, pack.len()) {
            Ok(bytes) => {
                pack[..bytes.len()].copy_from_slice(&bytes);
                (0, bytes.len() as u32)
            }
            Err(number) => (number, 0),
        })
    }
}

/// The fast one of `tuned.rs`.
pub struct Tuned;

impl Implementation for Tuned {
    fn name(&self) -> &'static str {
        "tuned"
    }

    fn check(&self, pack: &[u8], certificate: &[u8]) -> u32 {
        tuned::check(pack, certificate)
    }

    fn list(&self, pack: &[u8], list: &mut [u8]) -> (u32, u32) {
        tuned::list(pack, list)
    }

    fn arc(&self, pack: &[u8], question: [u32; 4]) -> (u32, u32) {
        tuned::arc(pack, question)
    }
}

/// All that are compiled in, the checker first.
pub fn all() -> Vec<Box<dyn Implementation>> {
    vec![
        Box::new(Checker),
        Box::new(Tuned),
        #[cfg(feature = "library")]
        Box::new(crate::library::LIBRARY),
    ]
}

/// The same code at one or several places.
pub type Copies = Vec<Box<dyn Implementation>>;

/// The library and then the one before, if both are linked.
pub fn library_and_before() -> Option<Vec<Copies>> {
    #[cfg(feature = "before")]
    return Some(crate::library::PLACED.map(|copies| copies.map(|one| Box::new(one) as _).into()).into());
    #[cfg(not(feature = "before"))]
    None
}

/// The one of that name.
pub fn by_name(name: &str) -> Option<Box<dyn Implementation>> {
    all().into_iter().find(|one| one.name() == name)
}
