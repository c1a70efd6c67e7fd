//! A usage as the paper defines it (Definition 3.1), without variables.

use crate::law::{AsWritten, Law};

/// How an object will be locked and unlocked.
#[derive(Clone, Debug, PartialEq, Eq, Hash)]
pub enum Usage {
    /// `0`: not at all.
    Zero,
    /// `L.U`: locked, then used according to U.
    Lock(Box<Usage>),
    /// `^L.U`: unlocked, then used according to U.
    Unlock(Box<Usage>),
    /// `U*V`: according to both, in an interleaved manner.
    Parallel(Box<Usage>, Box<Usage>),
    /// `U&V`: according to one of them.
    Choice(Box<Usage>, Box<Usage>),
}

/// The paper's two numbers of a usage.
#[derive(Clone, Copy, Debug, PartialEq, Eq)]
pub struct Numbers {
    /// The least count that is reached.
    pub min: i32,
    /// The greatest count at the end.
    pub fin: i32,
}

impl Usage {
    pub fn lock(self) -> Usage {
        Usage::Lock(Box::new(self))
    }

    pub fn unlock(self) -> Usage {
        Usage::Unlock(Box::new(self))
    }

    pub fn parallel(self, other: Usage) -> Usage {
        Usage::Parallel(Box::new(self), Box::new(other))
    }

    pub fn choice(self, other: Usage) -> Usage {
        Usage::Choice(Box::new(self), Box::new(other))
    }

    /// Min and Fin by the paper's appendix A.
    pub fn numbers(&self) -> Numbers {
        self.numbers_by::<AsWritten>()
    }

    pub(crate) fn numbers_by<L: Law>(&self) -> Numbers {
        match self {
            Usage::Zero => Numbers { min: 0, fin: 0 },
            Usage::Lock(u) => L::lock(u.numbers_by::<L>()),
            Usage::Unlock(u) => L::unlock(u.numbers_by::<L>()),
            Usage::Parallel(u, v) => L::parallel(u.numbers_by::<L>(), v.numbers_by::<L>()),
            Usage::Choice(u, v) => L::choice(u.numbers_by::<L>(), v.numbers_by::<L>()),
        }
    }

    /// The usage itself and all that it is made of.
    pub fn parts(&self) -> Vec<&Usage> {
        let mut parts = vec![self];
        match self {
            Usage::Zero => {}
            Usage::Lock(u) | Usage::Unlock(u) => parts.extend(u.parts()),
            Usage::Parallel(u, v) | Usage::Choice(u, v) => {
                parts.extend(u.parts());
                parts.extend(v.parts());
            }
        }
        parts
    }
}
