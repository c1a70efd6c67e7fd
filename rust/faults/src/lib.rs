//! Faults seeded into class files, and a walker that runs methods on concrete objects: what a scan is held against.
//!
//! The walker shares neither the names of references nor the automaton with crate `skeleton`, only the reader of class files.

mod effect;
pub mod mutant;
pub mod walker;

pub use mutant::{mutants, Mutant};
pub use walker::{walked, Unbalanced, Walked};
