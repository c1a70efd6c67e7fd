//! The entries of a row, as the document writes them.

use crate::bytes::hex;
use std::fmt::{self, Display, Formatter};

pub const HIGHEST_DIP: u8 = 63;
pub const HIGHEST_END_BYTE: u8 = 127;
/// The descriptor of an integer; any other is a class.
pub const INT_DESCRIPTOR: u8 = 0xFF;

/// An end is kept in its byte with this added.
const END_BIAS: i16 = 64;

/// What four bytes of a row are.
#[derive(Clone, Copy, Debug, PartialEq, Eq)]
pub enum Entry {
    Int,
    Top,
    Ref {
        class: u8,
        pair: Pair,
    },
    /// A reference that may be null.
    Nullable {
        class: u8,
    },
    Blank,
    Malformed([u8; 4]),
}

/// The dip and the end of a reference.
#[derive(Clone, Copy, Debug, PartialEq, Eq)]
pub struct Pair {
    pub dip: i16,
    pub end: i16,
}

impl Pair {
    pub const ZERO: Pair = Pair { dip: 0, end: 0 };
}

impl Entry {
    /// In a bundle of so many classes.
    pub fn read(bytes: [u8; 4], classes: u8) -> Entry {
        match bytes {
            [0, 0, 0, 0] => Entry::Blank,
            [1, 0, 0, 0] => Entry::Int,
            [2, 0, 0, 0] => Entry::Top,
            [3, class, dip, end @ 1..=HIGHEST_END_BYTE]
                if class < classes && dip <= HIGHEST_DIP =>
            {
                let (dip, end) = (i16::from(dip), i16::from(end) - END_BIAS);
                Entry::Ref {
                    class,
                    pair: Pair { dip, end },
                }
            }
            [4, class, 0, 0] if class < classes => Entry::Nullable { class },
            _ => Entry::Malformed(bytes),
        }
    }

    /// A class with (0,0): a new object, or an argument.
    pub fn fresh(class: u8) -> Entry {
        Entry::Ref {
            class,
            pair: Pair::ZERO,
        }
    }

    /// What a new thread has for this descriptor.
    pub fn argument(descriptor: u8) -> Entry {
        match descriptor {
            INT_DESCRIPTOR => Entry::Int,
            class => Entry::fresh(class),
        }
    }

    /// What a field of this descriptor holds.
    pub fn held(descriptor: u8) -> Entry {
        match descriptor {
            INT_DESCRIPTOR => Entry::Int,
            class => Entry::Nullable { class },
        }
    }

    /// Whether it is null or a reference of this class.
    pub fn may_be_of(self, wanted: u8) -> bool {
        matches!(self, Entry::Ref { class, .. } | Entry::Nullable { class } if class == wanted)
    }

    /// How many releases are owing on it: a reference with an end below 0
    /// must not be dropped.
    pub fn owing(self) -> i16 {
        match self {
            Entry::Ref { pair, .. } => (-pair.end).max(0),
            _ => 0,
        }
    }
}

impl Display for Pair {
    fn fmt(&self, to: &mut Formatter) -> fmt::Result {
        write!(to, "({},{})", self.dip, self.end)
    }
}

impl Display for Entry {
    fn fmt(&self, to: &mut Formatter) -> fmt::Result {
        match self {
            Entry::Int => to.write_str("Int"),
            Entry::Top => to.write_str("Top"),
            Entry::Ref { class, pair } => write!(to, "C{class}{pair}"),
            Entry::Nullable { class } => write!(to, "C{class}?"),
            Entry::Blank => to.write_str("blank"),
            Entry::Malformed(bytes) => write!(to, "malformed[{}]", hex(bytes)),
        }
    }
}
