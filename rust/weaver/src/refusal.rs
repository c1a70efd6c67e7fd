//! Why the gate refuses.

use std::error::Error;
use std::fmt::{self, Display, Formatter};

/// Why nothing was written: the first that applies, in this order. Its text says so
/// in words.
///
/// ```
/// use weaver::GateRefusal;
///
/// let refusal = GateRefusal::Row { class: 0, address: 5 };
/// assert_eq!(
///     refusal.to_string(),
///     "class 0, address 5: a kind or the depth of the row is malformed (8)"
/// );
/// ```
#[derive(Clone, Copy, Debug, PartialEq, Eq)]
pub enum GateRefusal {
    /// 27: the classes are not one to eight, or a slice is not as long as they and
    /// their numbers ask.
    Lengths,
    /// 1: the bundle would be longer than 65,535 bytes.
    TooLong,
    /// 3: the class of what is thrown is none of the bundle's.
    Exception,
    /// 4: a class's numbers break a limit.
    Limits {
        /// The class that breaks it.
        class: u8,
    },
    /// 6: a descriptor is neither an integer's nor a class of the bundle.
    Descriptor {
        /// The class whose argument or field it describes.
        class: u8,
    },
    /// 7: four bytes are no instruction that may stand there.
    Instruction {
        /// The class whose code it is.
        class: u8,
        /// The address, from 1.
        address: u16,
    },
    /// 8: a kind or the depth of a row is malformed.
    Row {
        /// The class whose row it is.
        class: u8,
        /// The row's address, from 1.
        address: u16,
    },
    /// 22: no pairs make the verifier accept. Some way through a method does with a
    /// lock what it must not, or its kinds do not fit.
    Pairs,
    /// 24: the output is too short for the bundle, of which nothing else is wrong.
    Room,
}

impl GateRefusal {
    /// The document's number: 27, 1, 3, 4, 6, 7, 8, 22 or 24.
    pub fn number(&self) -> u8 {
        match self {
            GateRefusal::Lengths => 27,
            GateRefusal::TooLong => 1,
            GateRefusal::Exception => 3,
            GateRefusal::Limits { .. } => 4,
            GateRefusal::Descriptor { .. } => 6,
            GateRefusal::Instruction { .. } => 7,
            GateRefusal::Row { .. } => 8,
            GateRefusal::Pairs => 22,
            GateRefusal::Room => 24,
        }
    }

    /// The class that the refusal names; 0 where it names none.
    pub fn class(&self) -> u8 {
        match *self {
            GateRefusal::Limits { class }
            | GateRefusal::Descriptor { class }
            | GateRefusal::Instruction { class, .. }
            | GateRefusal::Row { class, .. } => class,
            _ => 0,
        }
    }

    /// The address that the refusal names; 0 where it names none.
    pub fn address(&self) -> u16 {
        match *self {
            GateRefusal::Instruction { address, .. } | GateRefusal::Row { address, .. } => address,
            _ => 0,
        }
    }

    fn reason(&self) -> &'static str {
        match self {
            GateRefusal::Lengths => {
                "the classes are not one to eight, or a slice is not as long as they and their \
                 numbers ask"
            }
            GateRefusal::TooLong => "the bundle would be longer than 65,535 bytes",
            GateRefusal::Exception => "the class of what is thrown is none of the bundle's",
            GateRefusal::Limits { .. } => {
                "its numbers of arguments, variables, stack places, fields or instructions break \
                 a limit"
            }
            GateRefusal::Descriptor { .. } => {
                "a descriptor is neither an integer's nor a class of the bundle"
            }
            GateRefusal::Instruction { .. } => "no instruction that may stand there",
            GateRefusal::Row { .. } => "a kind or the depth of the row is malformed",
            GateRefusal::Pairs => {
                "no pairs make the verifier accept: on some way a lock is left that is not held, \
                 or kept, or kinds do not fit"
            }
            GateRefusal::Room => "the output is too short for the bundle",
        }
    }
}

impl Display for GateRefusal {
    fn fmt(&self, to: &mut Formatter) -> fmt::Result {
        match *self {
            GateRefusal::Limits { class } | GateRefusal::Descriptor { class } => {
                write!(to, "class {class}: ")?
            }
            GateRefusal::Instruction { class, address } | GateRefusal::Row { class, address } => {
                write!(to, "class {class}, address {address}: ")?
            }
            _ => {}
        }
        write!(to, "{} ({})", self.reason(), self.number())
    }
}

impl Error for GateRefusal {}
