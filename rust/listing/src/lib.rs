//! A bundle in words: where its parts stand, and how they are written.
//!
//! Names and limits are those of docs/LAW.md. Every read is total: a byte
//! behind the end reads as 0, so that nothing here panics, whatever the bytes
//! are. What is read of a bundle that draws one of verdicts 1 to 6 means
//! nothing beyond the part that the verdict speaks of.

mod bytes;
mod columns;
mod entries;
mod instructions;
mod method;
mod places;
mod program;
mod rows;

pub use bytes::{byte, hex, word};
pub use columns::columns;
pub use entries::{Entry, Pair, HIGHEST_DIP, HIGHEST_END_BYTE, INT_DESCRIPTOR};
pub use instructions::{AddressField, Form, Instruction, Opcode, Operand, MOST_FIELDS};
pub use method::Method;
pub use places::{Head, Trailer, HEAD, MARK, TRAILER};
pub use program::Program;
pub use rows::Row;
