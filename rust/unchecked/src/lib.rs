//! The reference's own modules, compiled with another `known`: one that does
//! not look whether a place is there. What the benchmark times here is the
//! limit of the reference's algorithm, without the price of its checks.
//!
//! Nothing else may stand on this: a place that is not there is undefined. So
//! only what is timed is public, and only that is compiled.
#![allow(dead_code)]

#[path = "../../reference/src/belongs.rs"]
mod belongs;
#[path = "../../reference/src/bundle.rs"]
mod bundle;
#[path = "../../reference/src/entries.rs"]
mod entries;
#[path = "../../reference/src/fill.rs"]
mod fill;
#[path = "../../reference/src/gate.rs"]
mod gate;
#[path = "../../reference/src/history.rs"]
mod history;
#[path = "../../reference/src/instructions.rs"]
mod instructions;
mod known;
#[path = "../../reference/src/levels.rs"]
mod levels;
#[path = "../../reference/src/machine.rs"]
mod machine;
#[path = "../../reference/src/met.rs"]
mod met;
#[path = "../../reference/src/needs.rs"]
mod needs;
#[path = "../../reference/src/order.rs"]
mod order;
#[path = "../../reference/src/paths.rs"]
mod paths;
#[path = "../../reference/src/rules.rs"]
mod rules;
#[path = "../../reference/src/run.rs"]
mod run;
#[path = "../../reference/src/shape.rs"]
mod shape;
#[path = "../../reference/src/slips.rs"]
mod slips;
#[path = "../../reference/src/state.rs"]
mod state;
#[path = "../../reference/src/throws.rs"]
mod throws;
#[path = "../../reference/src/verify.rs"]
mod verify;

pub use machine::{fresh, step, State};
pub use run::run;
pub use verify::verify;
