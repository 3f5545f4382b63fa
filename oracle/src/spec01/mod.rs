//! Document 01, written out plainly in Rust: a third voice beside the Rust crate and the program.
//! Nothing here is meant to be quick; each part follows the sentences of its heading.

pub mod classes;
pub mod domain;
pub mod loading;
pub mod rules;
pub mod sheets;
pub mod sites;
pub mod terms;

// "Numbers"
pub const SITES: usize = 1024;
pub const SOURCES: usize = 8;
pub const FIELDS: u8 = 8;
pub const RULES: usize = 64;
pub const ITEMS: usize = 32;
pub const CONSTRAINED: usize = 32;
pub const EQUAL: usize = 32;
pub const SETS: usize = 64;
pub const TERMS: usize = 256;
pub const UNFOLDING: usize = 4096;
pub const DIGITS: usize = 64;

/// A refusal: its number and what is told with it.
#[derive(Clone, Debug, PartialEq, Eq)]
pub struct Refusal {
    pub number: u8,
    pub told: Vec<usize>,
}

pub fn refuse<T>(number: u8, told: &[usize]) -> Result<T, Refusal> {
    Err(Refusal { number, told: told.to_vec() })
}
