//! A whole bundle.

use crate::method::Method;
use crate::places::{Head, Trailer};
use std::fmt::{self, Display, Formatter};

/// A bundle, read where it stands.
#[derive(Clone, Copy, Debug)]
pub struct Program<'a> {
    bytes: &'a [u8],
    pub trailer: Trailer,
}

impl<'a> Program<'a> {
    pub fn new(bytes: &'a [u8]) -> Program<'a> {
        Program {
            bytes,
            trailer: Trailer::read(bytes),
        }
    }

    pub fn bundle(&self) -> &'a [u8] {
        self.bytes
    }

    pub fn method(&self, class: u8) -> Method<'a> {
        Method {
            bytes: self.bytes,
            classes: self.trailer.classes,
            class,
            head: Head::read(self.bytes, self.trailer.head(class)),
        }
    }

    pub fn methods(&self) -> impl Iterator<Item = Method<'a>> + '_ {
        (0..self.trailer.classes).map(|class| self.method(class))
    }
}

/// Every class's listing.
impl Display for Program<'_> {
    fn fmt(&self, to: &mut Formatter) -> fmt::Result {
        writeln!(to, "thrown: class {}", self.trailer.exception)?;
        self.methods()
            .try_for_each(|method| write!(to, "\n{method}"))
    }
}
