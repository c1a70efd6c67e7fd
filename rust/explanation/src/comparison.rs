//! One entry held against what a row claims at its place.

use crate::words::{kind, Place};
use hveitmar::Why;
use listing::{Entry, Pair};
use std::fmt::{self, Display, Formatter};

/// What the instruction does with the entry on the way.
#[derive(Clone, Copy, Debug, PartialEq, Eq)]
pub enum Change {
    None,
    Entered,
    Exited,
    /// load shares a reference's pair out: this is claimed of the new top.
    Shared(Entry),
}

/// An entry that comes to a place, and what is claimed there.
#[derive(Clone, Copy, Debug, PartialEq, Eq)]
pub struct Comparison {
    pub place: Place,
    pub came: Entry,
    pub change: Change,
    pub claimed: Entry,
}

/// What is short where an entry does not fit.
#[derive(Clone, Copy, Debug, PartialEq, Eq)]
pub enum Short {
    Kind { came: Entry, claimed: Entry },
    Dip { has: i16, wanted: i16 },
    End { has: i16, wanted: i16 },
}

impl Comparison {
    /// What is short, if it does not fit.
    pub fn short(&self) -> Option<Short> {
        match (self.came, self.claimed) {
            (Entry::Ref { class, pair }, claimed) => self.reference(class, pair, claimed),
            (Entry::Nullable { class }, claimed) if self.change == Change::Entered => {
                self.reference(class, Pair::ZERO, claimed)
            }
            (Entry::Int | Entry::Top | Entry::Nullable { .. }, Entry::Top) => None,
            (Entry::Int, Entry::Int) => None,
            (Entry::Nullable { class }, Entry::Nullable { class: own }) if own == class => None,
            (came, claimed) => Some(Short::Kind { came, claimed }),
        }
    }

    fn reference(&self, class: u8, pair: Pair, claimed: Entry) -> Option<Short> {
        let weight = |claimed| match weight(claimed, class) {
            Some(pair) => Ok(pair),
            None => Err(Short::Kind {
                came: self.came,
                claimed,
            }),
        };
        let wanted = match weight(claimed) {
            // A plain claim that has no pair drops it, whatever the dip is.
            Ok(_) if !matches!(claimed, Entry::Ref { .. }) && self.change == Change::None => Pair {
                dip: pair.dip,
                end: 0,
            },
            Ok(wanted) => wanted,
            Err(short) => return Some(short),
        };
        match self.change {
            Change::None => lacking(pair, wanted),
            Change::Entered | Change::Exited => lacking(self.change.moved(pair), wanted),
            Change::Shared(top) => match weight(top) {
                Ok(top) => lacking(pair, sum(wanted, top)),
                Err(short) => Some(short),
            },
        }
    }
}

impl Change {
    /// What is left of a pair.
    pub fn moved(self, pair: Pair) -> Pair {
        let by = match self {
            Change::Entered => 1,
            Change::Exited => -1,
            Change::None | Change::Shared(_) => 0,
        };
        Pair {
            dip: pair.dip + by,
            end: pair.end - by,
        }
    }
}

/// What a claim weighs behind a reference of this class: its pair, or (0,0)
/// as Top or where it may be null; no other can follow.
fn weight(claimed: Entry, class: u8) -> Option<Pair> {
    match claimed {
        Entry::Top => Some(Pair::ZERO),
        Entry::Nullable { class: own } if own == class => Some(Pair::ZERO),
        Entry::Ref { class: own, pair } if own == class => Some(pair),
        _ => None,
    }
}

fn sum(one: Pair, other: Pair) -> Pair {
    Pair {
        dip: one.dip + other.dip,
        end: one.end + other.end,
    }
}

fn lacking(has: Pair, wanted: Pair) -> Option<Short> {
    if has.dip < wanted.dip {
        Some(Short::Dip {
            has: has.dip,
            wanted: wanted.dip,
        })
    } else if has.end < wanted.end {
        Some(Short::End {
            has: has.end,
            wanted: wanted.end,
        })
    } else {
        None
    }
}

impl Short {
    pub fn why(&self) -> Why {
        match self {
            Short::Kind { .. } => Why::Kind,
            Short::Dip { .. } => Why::Dip,
            Short::End { .. } => Why::End,
        }
    }

    /// By how much.
    pub fn missing(&self) -> i16 {
        match self {
            Short::Kind { .. } => 0,
            Short::Dip { has, wanted } | Short::End { has, wanted } => wanted - has,
        }
    }
}

impl Display for Short {
    fn fmt(&self, to: &mut Formatter) -> fmt::Result {
        let missing = self.missing();
        match self {
            Short::Kind { came, claimed } => {
                write!(to, "{} is not {}", kind(*came), kind(*claimed))
            }
            Short::Dip { has, wanted } => write!(
                to,
                "the dip is {has} and must be at least {wanted}, so it is {missing} too small"
            ),
            Short::End { has, wanted } => write!(
                to,
                "the end is {has} and must be at least {wanted}, so it is {missing} too small"
            ),
        }
    }
}
