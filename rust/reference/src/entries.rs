//! The four-byte entries of a row, and how one compares with another.

use crate::bundle::INT;
use crate::slips::{AsWritten, Law, Slip};

/// An entry as it stands in the bundle.
pub type Raw = [u8; 4];

/// The first byte of an entry in use says what it is.
pub mod kind {
    pub const INT: u8 = 1;
    pub const TOP: u8 = 2;
    pub const REFERENCE: u8 = 3;
    pub const NULLABLE: u8 = 4;
}

/// Stack entries below the depth in use.
pub const UNUSED: Raw = [0, 0, 0, 0];

/// The end is kept in its byte with this added.
pub const END_BIAS: i16 = 64;

/// Dips are 0..63 and ends -63..63.
pub const MAX_WEIGHT: i16 = 63;

/// Why a rule fails, by the number that verdict 9 carries.
#[derive(Clone, Copy, Debug, PartialEq, Eq)]
pub enum Why {
    /// A depth, the kind of an entry named in row l, or a "may go".
    Asked = 0,
    /// Two entries compared: kind or class differs, never against Top;
    Kind = 1,
    /// else the dip is too small;
    Dip = 2,
    /// else the end is.
    End = 3,
}

/// What a comparison, or a whole rule, comes to: it holds when nothing fails.
pub type Outcome = Result<(), Why>;

/// What a rule asks before it compares anything.
pub fn ask(holds: bool) -> Outcome {
    match holds {
        true => Ok(()),
        false => Err(Why::Asked),
    }
}

/// The type of one variable or one stack place.
#[derive(Clone, Copy, Debug, PartialEq, Eq)]
pub enum Entry {
    Int,
    Top,
    Ref {
        class: u8,
        pair: Pair,
    },
    /// A reference that may be null; it weighs (0,0).
    Nullable {
        class: u8,
    },
}

/// A reference's pair: the dip d and the end e.
#[derive(Clone, Copy, Debug, PartialEq, Eq)]
pub struct Pair {
    pub dip: i16,
    pub end: i16,
}

impl Pair {
    /// What a new object and an argument come with, and what Int and Top weigh.
    pub const ZERO: Pair = Pair { dip: 0, end: 0 };

    pub const fn new(dip: i16, end: i16) -> Pair {
        Pair { dip, end }
    }

    /// d >= d' and e >= e'.
    pub fn covers(self, other: Pair) -> Outcome {
        if self.dip < other.dip {
            Err(Why::Dip)
        } else if self.end < other.end {
            Err(Why::End)
        } else {
            Ok(())
        }
    }

    /// The pair that both together need.
    pub fn plus(self, other: Pair) -> Pair {
        Pair::new(self.dip + other.dip, self.end + other.end)
    }

    /// What is left after the lock is taken once.
    pub fn entered(self) -> Pair {
        Pair::new(self.dip + 1, self.end - 1)
    }

    /// What is left after the lock is given back once; a dip of -1 covers none.
    pub fn exited(self) -> Pair {
        Pair::new(self.dip - 1, self.end + 1)
    }
}

/// By an entry's first byte, the bits of all four that are never set.
const NEVER_SET: [u32; 256] = {
    let mut never = [u32::MAX; 256];
    never[kind::INT as usize] = 0x00FF_FFFF;
    never[kind::TOP as usize] = 0x00FF_FFFF;
    // A dip of 0..63 and an end byte up to 127.
    never[kind::REFERENCE as usize] = 0x0000_C080;
    never[kind::NULLABLE as usize] = 0x0000_FFFF;
    never
};

/// Whether the four bytes are Int, Top or a reference to one of the bundle's
/// `classes`, which may be null or not; anything else draws verdict 8.
pub fn well_formed(raw: Raw, classes: u8) -> bool {
    let [first, class, _, end] = raw;
    // Kinds follow no pattern, so they are looked up, not branched on. Only a
    // reference has an end byte, and none that is 0.
    (u32::from_be_bytes(raw) & NEVER_SET[usize::from(first)] == 0)
        & (raw != UNUSED)
        & (class < classes)
        & ((end != 0) == (first == kind::REFERENCE))
}

impl Entry {
    /// Reads an entry already known to be well formed.
    pub fn read(raw: Raw) -> Entry {
        match raw[0] {
            kind::INT => Entry::Int,
            kind::TOP => Entry::Top,
            kind::NULLABLE => Entry::Nullable { class: raw[1] },
            _ => Entry::Ref {
                class: raw[1],
                pair: Pair::new(i16::from(raw[2]), i16::from(raw[3]) - END_BIAS),
            },
        }
    }

    /// The entry as it stands in a bundle.
    pub fn bytes(self) -> Raw {
        match self {
            Entry::Int => [kind::INT, 0, 0, 0],
            Entry::Top => [kind::TOP, 0, 0, 0],
            Entry::Ref { class, pair } => {
                let end = (pair.end + END_BIAS) as u8;
                [kind::REFERENCE, class, pair.dip as u8, end]
            }
            Entry::Nullable { class } => [kind::NULLABLE, class, 0, 0],
        }
    }

    pub const fn reference(class: u8, dip: i16, end: i16) -> Entry {
        Entry::Ref {
            class,
            pair: Pair::new(dip, end),
        }
    }

    /// A class with (0,0): a new object, or an argument.
    pub const fn fresh(class: u8) -> Entry {
        Entry::Ref {
            class,
            pair: Pair::ZERO,
        }
    }

    /// A reference of this class that is not null, whatever its pair.
    pub fn is_of(self, wanted: u8) -> bool {
        matches!(self, Entry::Ref { class, .. } if class == wanted)
    }

    /// Null or a reference of this class.
    pub fn may_be_of(self, wanted: u8) -> bool {
        self.is_of(wanted) || self == Entry::Nullable { class: wanted }
    }

    /// What a field of this descriptor gives.
    pub const fn held(descriptor: u8) -> Entry {
        match descriptor {
            INT => Entry::Int,
            class => Entry::Nullable { class },
        }
    }

    /// The rule "Fits", and what is short where it fails.
    pub fn compare<L: Law>(self, next: Entry) -> Outcome {
        match (self, next) {
            (Entry::Int | Entry::Top, Entry::Top) | (Entry::Int, Entry::Int) => Ok(()),
            (Entry::Nullable { class }, _) => nullable_fits::<L>(class, next),
            (Entry::Ref { class, pair }, Entry::Ref { .. }) => {
                pair.covers(next.weight_after(class)?)
            }
            (Entry::Ref { class, pair }, _) => {
                next.weight_after(class)?;
                // Its dip is dropped, whatever it is.
                match pair.end < 0 && !owing_fits::<L>(next) {
                    true => Err(Why::End),
                    false => Ok(()),
                }
            }
            _ => Err(Why::Kind),
        }
    }

    pub fn fits(self, next: Entry) -> bool {
        self.compare::<AsWritten>(next).is_ok()
    }

    /// The rule "May go".
    pub fn may_go<L: Law>(self) -> bool {
        match self {
            Entry::Int | Entry::Top | Entry::Nullable { .. } => true,
            Entry::Ref { pair, .. } => pair.end >= -i16::from(L::slips(Slip::MayGoMinusOne)),
        }
    }

    /// What this entry weighs as the next one of a reference to `class`:
    /// its pair, or (0,0) as Top or as one that may be null; anything else
    /// can't follow.
    pub fn weight_after(self, class: u8) -> Result<Pair, Why> {
        match self {
            Entry::Top => Ok(Pair::ZERO),
            Entry::Nullable { class: own } if own == class => Ok(Pair::ZERO),
            Entry::Ref { class: own, pair } if own == class => Ok(pair),
            _ => Err(Why::Kind),
        }
    }
}

/// A reference to `class` that may be null becomes Top or stays what it is.
fn nullable_fits<L: Law>(class: u8, next: Entry) -> Outcome {
    let fits = match next {
        Entry::Top => true,
        Entry::Nullable { class: own } => own == class || L::slips(Slip::NullableFitsAnyClass),
        Entry::Ref { class: own, pair } => {
            own == class && pair == Pair::ZERO && L::slips(Slip::NullableFitsReference)
        }
        Entry::Int => false,
    };
    match fits {
        true => Ok(()),
        false => Err(Why::Kind),
    }
}

fn owing_fits<L: Law>(next: Entry) -> bool {
    L::slips(Slip::OwingFitsNullable) && matches!(next, Entry::Nullable { .. })
}

/// Each entry fits its place; else what is short at the first that doesn't.
/// Both sides have equally many.
#[inline]
pub fn all_fit<L: Law>(row: &[Raw], next: &[Raw]) -> Outcome {
    // Fits is reflexive, and most entries stay as they are: equal bytes suffice.
    row.iter().zip(next).try_for_each(|(&a, &b)| match a == b {
        true => Ok(()),
        false => Entry::read(a).compare::<L>(Entry::read(b)),
    })
}

/// Every entry may go.
pub fn all_may_go<L: Law>(entries: &[Raw]) -> bool {
    entries.iter().all(|&raw| Entry::read(raw).may_go::<L>())
}
