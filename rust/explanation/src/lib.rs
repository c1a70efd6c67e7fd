//! Why a bundle is refused, in words.
//!
//! The verdict is the proved verifier's. The words are tested, not proved:
//! this crate reads the place that the verdict names once more, by the same
//! law (docs/LAW.md), and tells what it finds there. Where it names an entry,
//! its own comparison is the verdict's why; the tests hold that over the
//! generator's refusals. A lock order is told by the reference's own rule, and
//! why no pairs would do by the reference's own search for them.

mod address;
mod asked;
mod comparison;
mod container;
mod edges;
mod finding;
mod first;
mod form;
mod law;
mod order;
mod pairs;
mod rule;
mod table;
mod words;

use hveitmar::{Refusal, Why};
use listing::{columns, Program};
use std::fmt::{self, Display, Formatter};
use words::wrapped;

pub use order::nested;
pub use pairs::explain_filling;

/// What is told of a refusal: the rule, what was held against it, and what
/// was found.
#[derive(Clone, Debug, PartialEq, Eq)]
pub struct Explanation {
    /// The rule that broke.
    rule: String,
    /// What was looked at, each with its name: rows, or bytes.
    seen: Vec<(String, String)>,
    /// What is wrong with it, and what that means.
    found: Vec<String>,
    /// What its own comparison gives, for verdict 9.
    why: Option<Why>,
}

impl Explanation {
    /// Of verdict 9, why the rule fails by its own comparison.
    pub fn why(&self) -> Option<Why> {
        self.why
    }

    /// Whether anything was found that breaks the rule.
    pub fn is_complete(&self) -> bool {
        !self.found.is_empty()
    }
}

/// Explains the verdict that the verifier gave on these bytes.
pub fn explain(bytes: &[u8], refusal: Refusal) -> Explanation {
    explain_ordered(bytes, &[], refusal)
}

/// The same under a lock order: the verdict on these bytes with these levels.
pub fn explain_ordered(bytes: &[u8], levels: &[u8], refusal: Refusal) -> Explanation {
    let program = Program::new(bytes);
    match refusal {
        Refusal::Length => container::length(bytes),
        Refusal::Trailer => container::trailer(bytes),
        Refusal::Directory => container::directory(bytes),
        Refusal::Limits { class } => container::limits(&program.method(class)),
        Refusal::Record { class } => container::record(&program, class),
        Refusal::Descriptor { class } => container::descriptor(&program, class),
        Refusal::Instruction { class, address } => table::explain(&program, class, address),
        Refusal::Row { class, address } => form::explain(&program, class, address),
        Refusal::Rule { class, address, .. } => rule::explain(&program, class, address),
        Refusal::FirstRow { class } => first::explain(&program, class),
        Refusal::Order { class, address } => order::explain(&program, levels, class, address),
        Refusal::Levels => order::explain_list(levels),
        Refusal::Shared => pairs::shared(bytes),
        Refusal::Pairs => pairs::none(bytes),
    }
}

impl Display for Explanation {
    fn fmt(&self, to: &mut Formatter) -> fmt::Result {
        let seen = self.seen.iter();
        let seen: Vec<Vec<String>> = seen
            .map(|(name, text)| vec![format!("    {name}"), text.clone()])
            .collect();
        writeln!(to, "{}\n", wrapped(&self.rule))?;
        writeln!(to, "{}", columns(&seen))?;
        self.found
            .iter()
            .try_for_each(|line| writeln!(to, "{}", wrapped(line)))
    }
}
