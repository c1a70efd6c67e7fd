//! The proved gate for weavers, instrumenters and compilers: what they are about to
//! write is checked first, and comes back as a bundle with its pairs worked out.
//!
//! A method is written line by line: an instruction, and the kinds of variables and
//! stack (its top first) before it. Dips and ends are not asked for.
//!
//! ```
//! use weaver::{Bundle, Class, Instruction::*, Kind::*};
//!
//! let method = Class::new()
//!     .line(New(0, None), &[Top], &[])
//!     .line(Store(0), &[Top], &[Reference(0)])
//!     .line(MonitorEnter(0, None), &[Reference(0)], &[])
//!     .line(MonitorExit(0), &[Reference(0)], &[])
//!     .line(Return, &[Reference(0)], &[]);
//! let bundle: Vec<u8> = Bundle::new().class(method).finish()?;
//! # assert_eq!(bundle.len(), 8 + 8 + 5 * (4 + 4 + 1 + 4));
//! # Ok::<(), weaver::GateRefusal>(())
//! ```
//!
//! What is refused comes back as a [`GateRefusal`]: no bundle comes out that the
//! verifier does not accept. `examples/weave.rs` weaves a probe into a method, once
//! well and once so that a lock is not given back.
//!
//! [`gate`] is the call itself, on slices as docs/LAW.md has them, which writes into
//! bytes that are lent; it is proved, whatever it is given, and this crate adds
//! types. The same call for C is in `include/hveitmar_gate.h`.

#![warn(missing_docs)]

mod bundle;
mod call;
mod class;
mod instruction;
mod refusal;

pub use bundle::Bundle;
pub use call::{gate, Parts, Written};
pub use class::{Class, Descriptor, Kind};
pub use instruction::Instruction;
pub use refusal::GateRefusal;
