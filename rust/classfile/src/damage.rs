//! What is wrong with a file.

use std::error::Error;
use std::fmt::{self, Display, Formatter};

/// The first thing that can't be read, and where it stands.
#[derive(Clone, Debug, PartialEq, Eq)]
pub struct Damage {
    /// Its offset in the file.
    pub at: usize,
    /// What is wrong, in words.
    pub what: String,
}

impl Damage {
    pub(crate) fn new(at: usize, what: impl Into<String>) -> Damage {
        let what = what.into();
        Damage { at, what }
    }
}

impl Display for Damage {
    fn fmt(&self, to: &mut Formatter) -> fmt::Result {
        write!(to, "damaged at {}: {}", self.at, self.what)
    }
}

impl Error for Damage {}
