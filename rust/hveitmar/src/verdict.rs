//! What the verifier says of a bundle.

use std::error::Error;
use std::fmt::{self, Display, Formatter};

/// The verdict on a bundle.
///
/// Its text is the line that the program `hveitmar` prints.
///
/// ```
/// use hveitmar::{Refusal, Verdict, Why};
///
/// let refusal = Refusal::Rule { class: 0, address: 5, why: Why::End };
/// let verdict = Verdict::Refused(refusal);
/// assert_eq!(verdict.to_string(), "refused 9 class 0 address 5 why 3");
/// assert_eq!(Verdict::Accepted { classes: 1 }.to_string(), "accepted classes 1");
/// ```
#[derive(Clone, Copy, Debug, PartialEq, Eq)]
pub enum Verdict {
    /// 0: nothing is broken.
    Accepted {
        /// How many classes the bundle has.
        classes: u8,
    },
    /// The first breach, in the law's order: 1 to 10, and under a lock order
    /// 25 and 26 too.
    Refused(Refusal),
}

/// The first breach of a bundle.
#[derive(Clone, Copy, Debug, PartialEq, Eq)]
pub enum Refusal {
    /// 1: fewer than 8 bytes, or more than 65,535.
    Length,
    /// 2: the trailer's mark or length is wrong.
    Trailer,
    /// 3: the number of classes, the directory's place, or the class of what
    /// is thrown is out of bounds.
    Directory,
    /// 4: a class's numbers in the directory break a limit.
    Limits {
        /// The class that breaks it.
        class: u8,
    },
    /// 5: a class's record runs into the trailer.
    Record {
        /// The class whose record it is.
        class: u8,
    },
    /// 6: a descriptor is neither an integer's nor a class of the bundle.
    Descriptor {
        /// The class whose argument or field it describes.
        class: u8,
    },
    /// 7: four bytes are no instruction that may stand there.
    Instruction {
        /// The class whose code it is.
        class: u8,
        /// The address, from 1.
        address: u16,
    },
    /// 8: a row is not well formed.
    Row {
        /// The class whose row it is.
        class: u8,
        /// The row's address, from 1.
        address: u16,
    },
    /// 9: the rule of an address fails.
    Rule {
        /// The class whose code it is.
        class: u8,
        /// The address, from 1.
        address: u16,
        /// Why it fails.
        why: Why,
    },
    /// 10: row 1 claims more than a thread begins with.
    FirstRow {
        /// The class whose row it is.
        class: u8,
    },
    /// 25: a lock is taken while one may be held that is not of a higher level.
    Order {
        /// The class whose code it is.
        class: u8,
        /// The address, from 1.
        address: u16,
    },
    /// 26: the list of levels is not eight bytes long.
    Levels,
    /// 22: no pairs make the verifier accept, where they are to be filled in.
    Pairs,
    /// 23: a record shares a byte with another or with the directory, where
    /// pairs are to be filled in.
    Shared,
}

/// Why a rule fails.
#[derive(Clone, Copy, Debug, PartialEq, Eq)]
pub enum Why {
    /// 0: a depth, the kind or class of an entry that is taken, or an entry
    /// that must not be dropped.
    Asked = 0,
    /// 1: the first entry that does not fit has another kind or class.
    Kind = 1,
    /// 2: its dip is too small.
    Dip = 2,
    /// 3: its end is too small.
    End = 3,
}

impl Why {
    const ALL: [Why; 4] = [Why::Asked, Why::Kind, Why::Dip, Why::End];

    /// The document's number, 0 to 3.
    pub fn number(self) -> u8 {
        self as u8
    }

    fn from_number(number: u8) -> Option<Why> {
        Why::ALL.get(usize::from(number)).copied()
    }
}

impl Display for Why {
    fn fmt(&self, to: &mut Formatter) -> fmt::Result {
        to.write_str(match self {
            Why::Asked => "something asked of the row is not so",
            Why::Kind => "an entry has another kind or class",
            Why::Dip => "an entry's dip is too small",
            Why::End => "an entry's end is too small",
        })
    }
}

impl Refusal {
    /// The document's number: 1 to 10, 22, 23, 25 or 26.
    pub fn number(&self) -> u8 {
        match self {
            Refusal::Length => 1,
            Refusal::Trailer => 2,
            Refusal::Directory => 3,
            Refusal::Limits { .. } => 4,
            Refusal::Record { .. } => 5,
            Refusal::Descriptor { .. } => 6,
            Refusal::Instruction { .. } => 7,
            Refusal::Row { .. } => 8,
            Refusal::Rule { .. } => 9,
            Refusal::FirstRow { .. } => 10,
            Refusal::Order { .. } => 25,
            Refusal::Levels => 26,
            Refusal::Pairs => 22,
            Refusal::Shared => 23,
        }
    }

    /// The class that the refusal names; 0 where it names none.
    pub fn class(&self) -> u8 {
        match *self {
            Refusal::Length
            | Refusal::Trailer
            | Refusal::Directory
            | Refusal::Levels
            | Refusal::Pairs
            | Refusal::Shared => 0,
            Refusal::Limits { class }
            | Refusal::Record { class }
            | Refusal::Descriptor { class }
            | Refusal::Instruction { class, .. }
            | Refusal::Row { class, .. }
            | Refusal::Rule { class, .. }
            | Refusal::FirstRow { class }
            | Refusal::Order { class, .. } => class,
        }
    }

    /// The address that the refusal names; 0 where it names none.
    pub fn address(&self) -> u16 {
        match *self {
            Refusal::Instruction { address, .. }
            | Refusal::Row { address, .. }
            | Refusal::Rule { address, .. }
            | Refusal::Order { address, .. } => address,
            _ => 0,
        }
    }

    /// Why a rule fails, of verdict 9 alone.
    pub fn why(&self) -> Option<Why> {
        match *self {
            Refusal::Rule { why, .. } => Some(why),
            _ => None,
        }
    }
}

impl Display for Refusal {
    fn fmt(&self, to: &mut Formatter) -> fmt::Result {
        let (number, class, address) = (self.number(), self.class(), self.address());
        write!(to, "refused {number} class {class} address {address}")?;
        match self.why() {
            Some(why) => write!(to, " why {}", why.number()),
            None => Ok(()),
        }
    }
}

impl Error for Refusal {}

impl Verdict {
    /// The document's number: 0 to 10, 25 or 26.
    pub fn number(&self) -> u8 {
        match self {
            Verdict::Accepted { .. } => 0,
            Verdict::Refused(refusal) => refusal.number(),
        }
    }

    /// Whether the number is 0.
    pub fn is_accepted(&self) -> bool {
        matches!(self, Verdict::Accepted { .. })
    }

    /// How many classes an accepted bundle has, or the refusal as an error.
    ///
    /// ```
    /// fn admit(bundle: &[u8]) -> Result<(), Box<dyn std::error::Error>> {
    ///     hveitmar::verify(bundle).into_result()?;
    ///     Ok(())
    /// }
    /// let refused = admit(b"no bundle").expect_err("it has no trailer");
    /// assert_eq!(refused.to_string(), "refused 2 class 0 address 0");
    /// ```
    pub fn into_result(self) -> Result<u8, Refusal> {
        match self {
            Verdict::Accepted { classes } => Ok(classes),
            Verdict::Refused(refusal) => Err(refusal),
        }
    }

    /// Reads the number of a verdict under a lock order.
    pub(crate) fn unpacked_ordered(packed: u64) -> Option<Verdict> {
        match packed.to_le_bytes() {
            [25, class, low, high, 0, 0, 0, 0] => {
                let address = u16::from_le_bytes([low, high]);
                Some(Verdict::Refused(Refusal::Order { class, address }))
            }
            [26, 0, 0, 0, 0, 0, 0, 0] => Some(Verdict::Refused(Refusal::Levels)),
            _ => Verdict::unpacked(packed),
        }
    }

    /// Reads the number of the call that fills pairs in: how many classes the
    /// bundle has, or one of 1 to 8, 22 and 23.
    pub(crate) fn unpacked_filled(packed: u64) -> Option<Result<u8, Refusal>> {
        match packed {
            22 => return Some(Err(Refusal::Pairs)),
            23 => return Some(Err(Refusal::Shared)),
            _ => {}
        }
        match Verdict::unpacked(packed)?.into_result() {
            Err(Refusal::Rule { .. } | Refusal::FirstRow { .. }) => None,
            filled => Some(filled),
        }
    }

    /// Reads the C call's number, all of it: what is no verdict of the law is
    /// none here.
    pub(crate) fn unpacked(packed: u64) -> Option<Verdict> {
        let [number, class, low, high, why, 0, 0, 0] = packed.to_le_bytes() else {
            return None;
        };
        let address = u16::from_le_bytes([low, high]);
        let refusal = match (number, class, address, why) {
            (0, classes, 0, 0) => return Some(Verdict::Accepted { classes }),
            (1, 0, 0, 0) => Refusal::Length,
            (2, 0, 0, 0) => Refusal::Trailer,
            (3, 0, 0, 0) => Refusal::Directory,
            (4, class, 0, 0) => Refusal::Limits { class },
            (5, class, 0, 0) => Refusal::Record { class },
            (6, class, 0, 0) => Refusal::Descriptor { class },
            (7, class, address, 0) => Refusal::Instruction { class, address },
            (8, class, address, 0) => Refusal::Row { class, address },
            (9, class, address, why) => Refusal::Rule {
                class,
                address,
                why: Why::from_number(why)?,
            },
            (10, class, 0, 0) => Refusal::FirstRow { class },
            _ => return None,
        };
        Some(Verdict::Refused(refusal))
    }
}

impl Display for Verdict {
    fn fmt(&self, to: &mut Formatter) -> fmt::Result {
        match self {
            Verdict::Accepted { classes } => write!(to, "accepted classes {classes}"),
            Verdict::Refused(refusal) => refusal.fmt(to),
        }
    }
}

#[cfg(test)]
mod tests {
    use super::*;

    #[test]
    fn numbers_are_read_as_they_are_written() {
        let packed = 9 | 3 << 8 | 256 << 16 | 2 << 32;
        let verdict = Verdict::unpacked(packed).expect("a verdict");
        assert_eq!(verdict.to_string(), "refused 9 class 3 address 256 why 2");
        assert_eq!(verdict.number(), 9);
    }

    #[test]
    fn numbers_under_a_lock_order() {
        let told = [
            (25 | 3 << 8 | 256 << 16, "refused 25 class 3 address 256"),
            (26, "refused 26 class 0 address 0"),
            (2 << 8, "accepted classes 2"),
            (9 | 7 << 16 | 1 << 32, "refused 9 class 0 address 7 why 1"),
        ];
        for (packed, line) in told {
            let verdict = Verdict::unpacked_ordered(packed).expect("a verdict");
            assert_eq!(verdict.to_string(), line);
        }
        for packed in [25, 26] {
            assert_eq!(Verdict::unpacked(packed), None, "only under an order");
        }
        for stray in [25 | 1 << 32, 26 | 1 << 8, 26 | 1 << 16, 26 | 1 << 32, 27] {
            assert_eq!(Verdict::unpacked_ordered(stray), None);
        }
    }

    #[test]
    fn numbers_of_pairs_filled_in() {
        let told = [
            (8 << 8, Ok(8)),
            (1, Err("refused 1 class 0 address 0")),
            (8 | 3 << 8 | 256 << 16, Err("refused 8 class 3 address 256")),
            (22, Err("refused 22 class 0 address 0")),
            (23, Err("refused 23 class 0 address 0")),
        ];
        for (packed, wanted) in told {
            let read = Verdict::unpacked_filled(packed).expect("an answer");
            let line = read.map_err(|refusal| refusal.to_string());
            assert_eq!(line, wanted.map_err(str::to_string));
        }
        let stray = [9 | 1 << 16, 10, 22 | 1 << 8, 23 | 1 << 16, 24, 25, 1 << 32];
        for packed in stray {
            assert_eq!(Verdict::unpacked_filled(packed), None);
        }
        for packed in [22, 23] {
            assert_eq!(Verdict::unpacked(packed), None, "only of pairs");
        }
    }

    #[test]
    fn other_numbers_are_no_verdict() {
        let stray = [
            11,
            1 | 1 << 8,
            4 | 1 << 16,
            8 | 1 << 32,
            9 | 4 << 32,
            9 << 40,
        ];
        assert!(stray
            .iter()
            .all(|&packed| Verdict::unpacked(packed).is_none()));
    }
}
