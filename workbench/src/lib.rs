//! The workbench: an independent checker, a tuned one, and what is needed to hold implementations against each other.

pub mod checker;
pub mod encode;
pub mod examples;
pub mod files;
pub mod folder;
pub mod generate;
pub mod graph;
pub mod implementation;
#[cfg(feature = "library")]
pub mod library;
pub mod random;
pub mod reach;
pub mod renumber;
pub mod report;
pub mod search;
pub mod slow;
pub mod slow_texts;
pub mod solver_text;
pub mod text;
pub mod tuned;
