//! The proved verifier and machine for Rust callers.
//!
//! [`verify`] judges a bundle, [`verify_ordered`] does so under a lock order,
//! [`fill`] works out the pairs that it wants, [`record`] finds a class's bytes in it, [`digest`] and [`answers`] run a
//! schedule on it, [`run`] does so on one that is accepted and gives the state at
//! the end, [`held`] tells how many objects a thread holds in a state of it,
//! [`meets`] what its next step meets, [`usage`] reads a usage, [`take`] takes a
//! method from a class file. All are proved to give what docs/LAW.md says,
//! whatever the bytes are; this crate adds types for their numbers. What a bundle
//! is, byte by byte, is there too.
//!
//! ```
//! # let folder = concat!(env!("CARGO_MANIFEST_DIR"), "/../../cases/");
//! let bundle = std::fs::read(format!("{folder}b.bundle"))?;
//! let verdict = hveitmar::verify(&bundle);
//! assert!(!verdict.is_accepted());
//! assert_eq!(verdict.to_string(), "refused 9 class 0 address 5 why 3");
//! # Ok::<(), std::io::Error>(())
//! ```
//!
//! The same calls for C are in `include/hveitmar.h`.

#![warn(missing_docs)]

mod answer;
mod calls;
mod held;
mod met;
mod run;
mod take;
mod usage;
mod verdict;

pub use answer::Answer;
pub use calls::{
    answers, digest, fill, held, meets, record, run, run_into, take, usage, verify,
    verify_ordered,
};
pub use held::Held;
pub use met::Met;
pub use run::{Run, RunRefusal, STATE_BYTES};
pub use take::{TakeRefusal, MOST_TAKEN};
pub use usage::{Usage, UsageRefusal};
pub use verdict::{Refusal, Verdict, Why};
