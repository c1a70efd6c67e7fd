//! What a Java method does to locks, as a small method of Hveitmar's language.
//!
//! A method of a class file is decoded ([`instruction`]), the references in its places get names ([`value`]), each instruction's throws are told ([`throw`]),
//! and what is left is an automaton of lock operations ([`automaton`]), which is made small without changing the lock operations along its ways ([`reduction`])
//! and laid out as a method that a verifier of the language can judge ([`layout`]). Of a refused one, [`witness`] gives a shortest faulty way.
//!
//! Nothing here is proved: that the skeleton has every lock path of the method is tested.

pub mod automaton;
pub mod instruction;
pub mod layout;
pub mod moves;
pub mod reduction;
mod subroutine;
pub mod throw;
pub mod value;
pub mod witness;

use std::collections::HashSet;
use std::fmt;

/// What an entry of the exception table catches, as far as throws ask.
#[derive(Clone, Copy, Debug, PartialEq, Eq)]
pub enum Catch {
    /// Everything: no type, or `java.lang.Throwable`.
    All,
    /// A `NullPointerException` at least, but not everything.
    NullPointer,
    /// Something else.
    Other,
}

impl Catch {
    /// By the internal name of the type that is caught; `None` is an entry without a type.
    pub fn of(name: Option<&str>) -> Catch {
        match name {
            None | Some("java/lang/Throwable") => Catch::All,
            Some(
                "java/lang/Exception"
                | "java/lang/RuntimeException"
                | "java/lang/NullPointerException",
            ) => Catch::NullPointer,
            Some(_) => Catch::Other,
        }
    }
}

/// One entry of the exception table.
#[derive(Clone, Copy, Debug)]
pub struct Range {
    pub start: u16,
    pub end: u16,
    pub handler: u16,
    pub catch: Catch,
}

/// What `ldc` finds in the constant pool.
#[derive(Clone, Debug, PartialEq, Eq)]
pub enum Loaded {
    Number,
    Text,
    Class(String),
    /// A method handle, a method type, or a constant that is worked out on the first use.
    Resolved,
}

/// A field or a method that an instruction names.
#[derive(Clone, Debug, PartialEq, Eq)]
pub struct Member {
    pub owner: String,
    pub name: String,
    pub descriptor: String,
}

/// What a method's instructions ask of its class file's constant pool.
pub trait Pool {
    fn loaded(&self, index: u16) -> Option<Loaded>;
    /// A field, a method, or a call that is bound on its first use, whose owner is empty.
    fn member(&self, index: u16) -> Option<Member>;
}

/// One method that has code.
#[derive(Clone, Copy)]
pub struct Method<'a> {
    pub is_static: bool,
    pub descriptor: &'a str,
    pub max_locals: u16,
    pub code: &'a [u8],
    pub handlers: &'a [Range],
    /// Offset and line.
    pub lines: &'a [(u16, u16)],
    pub pool: &'a dyn Pool,
}

impl fmt::Debug for Method<'_> {
    fn fmt(&self, f: &mut fmt::Formatter<'_>) -> fmt::Result {
        write!(f, "method {} of {} bytes", self.descriptor, self.code.len())
    }
}

/// What may throw.
#[derive(Clone, Debug, Default)]
pub struct Throws {
    /// Every instruction may.
    pub strict: bool,
    /// Calls that never do, as `owner.name descriptor`.
    pub quiet: HashSet<String>,
}

/// Why a method cannot be judged.
#[derive(Clone, Debug, PartialEq, Eq)]
pub struct Obstacle {
    /// Where in the code.
    pub offset: u32,
    pub why: String,
}

impl Obstacle {
    pub fn new(at: u32, why: impl Into<String>) -> Obstacle {
        Obstacle {
            offset: at % 65_536,
            why: why.into(),
        }
    }
}

impl fmt::Display for Obstacle {
    fn fmt(&self, f: &mut fmt::Formatter<'_>) -> fmt::Result {
        write!(f, "{} at {}", self.why, self.offset)
    }
}

impl std::error::Error for Obstacle {}

#[cfg(test)]
pub(crate) mod tests {
    use super::*;

    /// A pool in which 1 is a text, 2 the class `A`, 3 a method `A.f()V`, 4 a static one `A.g()LA;`, 5 a field `A.x LA;`.
    #[derive(Debug)]
    pub struct Small;

    impl Pool for Small {
        fn loaded(&self, index: u16) -> Option<Loaded> {
            match index {
                1 => Some(Loaded::Text),
                2 => Some(Loaded::Class("A".into())),
                _ => None,
            }
        }

        fn member(&self, index: u16) -> Option<Member> {
            let (name, descriptor) = match index {
                3 => ("f", "()V"),
                4 => ("g", "()LA;"),
                5 => ("x", "LA;"),
                _ => return None,
            };
            Some(Member {
                owner: "A".into(),
                name: name.into(),
                descriptor: descriptor.into(),
            })
        }
    }

    /// An instance method `(A) void` with four variables and no handlers.
    pub fn method(code: &[u8]) -> Method<'_> {
        covered(code, &[])
    }

    pub fn covered<'a>(code: &'a [u8], handlers: &'a [Range]) -> Method<'a> {
        Method {
            is_static: false,
            descriptor: "(LA;)V",
            max_locals: 4,
            code,
            handlers,
            lines: &[],
            pool: &Small,
        }
    }
}
