//! A usage written as text.

use crate::usage::Usage;
use std::fmt::{self, Display, Formatter};

/// How tight what is written binds.
#[derive(Clone, Copy, PartialEq, Eq, PartialOrd, Ord)]
enum Binding {
    Choice,
    Parallel,
    Prefix,
}

impl Usage {
    /// The text with as many brackets around each part as are asked for, and
    /// at least as many as it needs.
    pub fn written(&self, brackets: &mut dyn FnMut() -> usize) -> String {
        self.written_as(Binding::Choice, brackets)
    }

    fn written_as(&self, wanted: Binding, brackets: &mut dyn FnMut() -> usize) -> String {
        let needed = usize::from(self.binding() < wanted);
        let pairs = brackets().max(needed);
        let (open, close) = ("(".repeat(pairs), ")".repeat(pairs));
        format!("{open}{}{close}", self.bare(brackets))
    }

    fn binding(&self) -> Binding {
        match self {
            Usage::Choice(..) => Binding::Choice,
            Usage::Parallel(..) => Binding::Parallel,
            _ => Binding::Prefix,
        }
    }

    /// Both signs group to the left, so what is right of one binds tighter.
    fn bare(&self, brackets: &mut dyn FnMut() -> usize) -> String {
        let mut part = |usage: &Usage, wanted| usage.written_as(wanted, brackets);
        match self {
            Usage::Zero => "0".to_string(),
            Usage::Lock(u) => "L.".to_string() + &part(u, Binding::Prefix),
            Usage::Unlock(u) => "^L.".to_string() + &part(u, Binding::Prefix),
            Usage::Parallel(u, v) => part(u, Binding::Parallel) + "*" + &part(v, Binding::Prefix),
            Usage::Choice(u, v) => part(u, Binding::Choice) + "&" + &part(v, Binding::Parallel),
        }
    }
}

/// The text with no more brackets than it needs.
impl Display for Usage {
    fn fmt(&self, to: &mut Formatter) -> fmt::Result {
        to.write_str(&self.written(&mut || 0))
    }
}
