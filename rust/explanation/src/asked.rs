//! What a rule asks of the row of its address, where it is not so.

use crate::words::{sentence, some, Place};
use hveitmar::Answer;
use listing::Entry;

#[derive(Clone, Debug, PartialEq, Eq)]
pub enum Asked {
    /// The stack has fewer entries than are taken.
    Few { taken: usize, depth: usize },
    /// An entry has another kind or class than the instruction takes.
    Taken {
        place: Place,
        found: Entry,
        wanted: String,
    },
    /// An entry on which a release is owing would be dropped.
    Dropped { place: Place, found: Entry },
    /// The stack that is left is not as deep as the row that is reached says.
    Depth {
        to: u16,
        left: usize,
        claimed: usize,
    },
}

impl Asked {
    /// The address whose row was looked at besides.
    pub fn reached(&self) -> Option<u16> {
        match *self {
            Asked::Depth { to, .. } => Some(to),
            _ => None,
        }
    }

    /// What is wrong, and what that means.
    pub fn told(&self, from: u16) -> Vec<String> {
        vec![self.found(from), self.meaning(from)]
    }

    fn found(&self, from: u16) -> String {
        match self {
            Asked::Few { taken, depth } => format!(
                "The instruction takes {} from the stack, and row {from} has {depth}: {} too few.",
                entries(*taken),
                taken - depth
            ),
            Asked::Taken {
                place,
                found,
                wanted,
            } => {
                let place = sentence(&place.to_string());
                format!("{place} is {found}, and {wanted} is wanted.")
            }
            Asked::Dropped { place, found } => {
                let (place, below) = (sentence(&place.to_string()), found.owing());
                format!("{place} is {found} and would be dropped: its end is {below} below 0.")
            }
            Asked::Depth { to, left, claimed } => format!(
                "The instruction leaves {} on the stack, and row {to} claims {claimed}: {} too {}.",
                entries(*left),
                left.abs_diff(*claimed),
                if left < claimed { "many" } else { "few" }
            ),
        }
    }

    fn meaning(&self, from: u16) -> String {
        match self {
            Asked::Few { .. } => fault(Answer::StackShort),
            Asked::Taken { .. } => fault(Answer::WrongKind),
            Asked::Dropped { found, .. } => {
                let releases = some(found.owing(), "release");
                format!("That leaves {releases} owing: the lock would be held for ever.")
            }
            Asked::Depth { to, .. } => {
                format!("The path {from} to {to} would bring another stack than row {to} says.")
            }
        }
    }
}

fn entries(count: usize) -> String {
    some(count as i64, "entry")
}

fn fault(answer: Answer) -> String {
    format!(
        "A thread may draw answer {} there: {answer}.",
        answer.number()
    )
}
