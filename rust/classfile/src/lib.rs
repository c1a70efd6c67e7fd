//! A reader of Java class files (Java Virtual Machine Specification, chapter
//! 4), versions 45 and up.
//!
//! All bytes are lent, and every read looks whether there is something to
//! read: whatever the bytes are, what comes out is a [`ClassFile`] or a
//! [`Damage`] with its offset, never a panic.
//!
//! ```
//! # let file = concat!(env!("CARGO_MANIFEST_DIR"), "/../../cases/java/Counts.class");
//! let bytes = std::fs::read(file)?;
//! let class = classfile::ClassFile::read(&bytes)?;
//! assert_eq!(class.name, "Counts");
//! let damage = classfile::ClassFile::read(&bytes[..9]).expect_err("it is cut short");
//! assert_eq!(damage.to_string(), "damaged at 8: the file ends");
//! # Ok::<(), Box<dyn std::error::Error>>(())
//! ```

#![warn(missing_docs)]

mod class;
mod code;
mod constants;
mod damage;
mod descriptors;
mod opcodes;
mod reader;
mod text;

pub use class::{ClassFile, Member};
pub use code::{Code, Handler, Line};
pub use constants::{Constant, Constants, Reference};
pub use damage::Damage;
pub use descriptors::{MethodDescriptor, Type};
pub use opcodes::{instructions, opcode_name, Instruction};
pub use text::text;
