//! Bundles, with their pairs and without, what a weaver hands over, lists of
//! levels, states, schedules, texts of usages and methods of class files by seed:
//! the same seed always gives the same.

pub mod attributes;
pub mod builder;
pub mod families;
pub mod levels;
pub mod lively;
pub mod marks;
pub mod pairs;
pub mod rng;
pub mod schedule;
pub mod texts;
pub mod two_locks;
pub mod weaves;
pub mod words;
