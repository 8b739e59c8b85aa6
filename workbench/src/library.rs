//! The static library, called through its C functions.

use crate::implementation::Implementation;

/// `struct teldyzhom_answer { uint32_t number; uint32_t value; }`
#[repr(C)]
#[derive(Clone, Copy)]
struct Answer {
    number: u32,
    value: u32,
}

/// A library's reader of solvers' texts.
type TextReader = unsafe extern "C" fn(*const u8, usize, *mut u8, usize) -> Answer;

/// One library that is linked: its functions as include/teldyzhom.h declares them; an older one may read no texts.
pub struct Library {
    name: &'static str,
    check: unsafe extern "C" fn(*const u8, usize, *const u8, usize) -> u32,
    list: unsafe extern "C" fn(*const u8, usize, *mut u8, usize) -> Answer,
    arc: unsafe extern "C" fn(*const u8, usize, u32, u32, u32, u32) -> Answer,
    read_text: Option<TextReader>,
}

/// The reader of texts that is linked by a name that starts so.
macro_rules! text_reader {
    ($prefix:expr) => {{
        extern "C" {
            #[link_name = concat!($prefix, "teldyzhom_read_text")]
            fn read_text(text: *const u8, text_len: usize, pack: *mut u8, pack_len: usize) -> Answer;
        }
        Some(read_text as TextReader)
    }};
}

/// The older library reads texts only if `./bench --before` has seen that it does.
#[cfg(feature = "before-texts")]
macro_rules! older_text_reader {
    ($prefix:expr) => {
        text_reader!($prefix)
    };
}
#[cfg(all(feature = "before", not(feature = "before-texts")))]
macro_rules! older_text_reader {
    ($prefix:expr) => {
        None
    };
}

/// The library whose functions are linked by names that start so.
macro_rules! linked {
    ($name:literal, $prefix:expr, $text_reader:ident) => {{
        extern "C" {
            #[link_name = concat!($prefix, "teldyzhom_check")]
            fn check(pack: *const u8, pack_len: usize, certificate: *const u8, certificate_len: usize) -> u32;
            #[link_name = concat!($prefix, "teldyzhom_list")]
            fn list(pack: *const u8, pack_len: usize, list: *mut u8, list_len: usize) -> Answer;
            #[link_name = concat!($prefix, "teldyzhom_arc")]
            fn arc(
                pack: *const u8,
                pack_len: usize,
                rule: u32,
                place: u32,
                other_rule: u32,
                other_place: u32,
            ) -> Answer;
        }
        Library { name: $name, check, list, arc, read_text: $text_reader!($prefix) }
    }};
}

/// The one built from this tree.
pub const LIBRARY: Library = linked!("library", "", text_reader);

/// The copies that `./bench --before` makes, their functions so many bytes past the start of a page.
#[cfg(feature = "before")]
macro_rules! placed {
    ($name:literal, $text_reader:ident, $($at:literal)*) => {
        [$(linked!($name, concat!($name, $at, "_"), $text_reader)),*]
    };
}

/// The one built from this tree and the older one.
#[cfg(feature = "before")]
pub const PLACED: [[Library; 4]; 2] =
    [placed!("library", text_reader, 0 16 32 48), placed!("before", older_text_reader, 0 16 32 48)];

impl Implementation for Library {
    fn name(&self) -> &'static str {
        self.name
    }

    fn check(&self, pack: &[u8], certificate: &[u8]) -> u32 {
        // Both slices are lent for the call and only read.
        unsafe { (self.check)(pack.as_ptr(), pack.len(), certificate.as_ptr(), certificate.len()) }
    }

    fn list(&self, pack: &[u8], list: &mut [u8]) -> (u32, u32) {
        // The list is lent mutably for the call; the library writes inside its length.
        let answer = unsafe { (self.list)(pack.as_ptr(), pack.len(), list.as_mut_ptr(), list.len()) };
        (answer.number, answer.value)
    }

    fn arc(&self, pack: &[u8], question: [u32; 4]) -> (u32, u32) {
        let [rule, place, other_rule, other_place] = question;
        // The slice is lent for the call and only read.
        let answer = unsafe { (self.arc)(pack.as_ptr(), pack.len(), rule, place, other_rule, other_place) };
        (answer.number, answer.value)
    }

    fn read_text(&self, text: &[u8], pack: &mut [u8]) -> Option<(u32, u32)> {
        // The text is lent for the call and only read, the buffer mutably; the library writes inside its length.
        let ask = |read: TextReader| unsafe { read(text.as_ptr(), text.len(), pack.as_mut_ptr(), pack.len()) };
        self.read_text.map(ask).map(|answer| (answer.number, answer.value))
    }
}
