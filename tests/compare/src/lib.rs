//! Everything around the second program: sessions by chance and by name, what watches over them, and the comparison of
//! other engines with it.

pub mod book;
pub mod build;
pub mod comparison;
pub mod coverage;
pub mod damage;
pub mod deed;
pub mod desk;
pub mod engine;
pub mod faults;
pub mod generate;
pub mod hints;
pub mod history;
#[cfg(feature = "linked")]
pub mod linked;
pub mod named;
pub mod named_entries;
pub mod named_kinds;
pub mod named_rules;
pub mod named_searches;
pub mod named_slots;
pub mod named_vectors;
pub mod parts;
pub mod pipe;
pub mod program_cases;
pub mod random;
pub mod stage;
pub mod step;
pub mod table;
pub mod wire;
