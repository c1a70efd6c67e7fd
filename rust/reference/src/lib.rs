//! An independent verifier and machine.
//!
//! Written from document 01 ("Precise rules and scope of the build"), the
//! requests of document 02 and the readings that settle them, so that it can
//! be held against the proved implementation without sharing its mistakes.

pub mod belongs;
pub mod bundle;
pub mod demand;
pub mod entries;
pub mod fill;
pub mod gate;
pub mod growth;
pub mod history;
pub mod instructions;
mod known;
pub mod levels;
pub mod machine;
pub mod met;
pub mod needs;
pub mod order;
pub mod paths;
pub mod rules;
pub mod run;
pub mod shape;
pub mod slips;
pub mod state;
pub mod take;
mod throws;
pub mod verify;
