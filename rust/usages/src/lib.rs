//! An independent reader of usages.
//!
//! Written from request Q-11 of document 02, the readings that settle it, and
//! sections 3.1 to 3.3 and appendix A of the paper (source document 000), so
//! that it can be held against the proved reader without sharing its mistakes.
//!
//! ```
//! use usages::answer;
//!
//! assert!(answer(b"L.L.(^L.0*^L.0)").reliable);
//! assert_eq!(answer(b"L.^L.^L.0").dip, 1);
//! assert_eq!(answer(b"L").number, 41);
//! ```

mod all;
mod answer;
mod law;
mod reader;
pub mod slips;
mod steps;
mod usage;
mod writer;

pub use all::up_to;
pub use answer::{answer, Answer};
pub use law::{DEEPEST, LONGEST};
pub use reader::{read, Reading, Wanted, Wrong};
pub use steps::by_steps;
pub use usage::{Numbers, Usage};
