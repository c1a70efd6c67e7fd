//! A usage read from its text, byte by byte, without limits.
//!
//! No byte is looked at twice: for each open bracket a level keeps what has
//! been read there so far. So the first byte that is refused is the first
//! that no usage has there.

use crate::law::{AsWritten, Law};
use crate::usage::Usage;
use std::fmt::{self, Display, Formatter};
use std::mem;

/// What a text says.
#[derive(Clone, Debug, PartialEq, Eq)]
pub struct Reading {
    pub usage: Usage,
    /// The most brackets open at once.
    pub depth: usize,
}

/// The first byte that makes a text no usage.
#[derive(Clone, Copy, Debug, PartialEq, Eq)]
pub struct Wrong {
    /// Its place, from 0; the text's length where the text ends too soon.
    pub at: usize,
    /// What a usage has there.
    pub wanted: Wanted,
    /// The most brackets open at once before it.
    pub depth: usize,
}

/// What may come next.
#[derive(Clone, Copy, Debug, PartialEq, Eq)]
pub enum Wanted {
    /// A usage that binds as tight as a prefix.
    Usage,
    /// The letter behind `^`.
    Letter,
    /// The dot behind `L`.
    Dot,
    /// A sign behind a usage, or the text's end.
    SignOrEnd,
    /// A sign behind a usage, in brackets.
    SignOrBracket,
}

/// The bytes that may come next.
impl Display for Wanted {
    fn fmt(&self, to: &mut Formatter) -> fmt::Result {
        to.write_str(match self {
            Wanted::Usage => "0, L, ^ or (",
            Wanted::Letter => "L",
            Wanted::Dot => ".",
            Wanted::SignOrEnd => "*, & or the end",
            Wanted::SignOrBracket => "*, & or )",
        })
    }
}

/// Reads a text, whatever its length and depth.
///
/// ```
/// let wrong = usages::read(b"L.(0*l.0)").expect_err("a small letter");
/// assert_eq!((wrong.at, wrong.wanted.to_string().as_str()), (5, "0, L, ^ or ("));
/// ```
pub fn read(text: &[u8]) -> Result<Reading, Wrong> {
    read_by::<AsWritten>(text)
}

pub(crate) fn read_by<L: Law>(text: &[u8]) -> Result<Reading, Wrong> {
    let mut reader = Reader::default();
    for (at, &byte) in text.iter().enumerate() {
        let wrong = reader.wrong(at);
        reader.take::<L>(byte).ok_or(wrong)?;
    }
    match reader.wanted() {
        Wanted::SignOrEnd => Ok(Reading {
            depth: reader.depth,
            usage: reader.level.whole::<L>(),
        }),
        _ => Err(reader.wrong(text.len())),
    }
}

#[derive(Default)]
struct Reader {
    after: After,
    /// The levels of the brackets around the one that is read.
    outer: Vec<Level>,
    level: Level,
    depth: usize,
}

/// What has just been read.
#[derive(Clone, Copy, Default)]
enum After {
    /// The beginning of a usage: nothing, a sign, a prefix, a bracket opened.
    #[default]
    Beginning,
    Hat,
    Letter(Prefix),
    Usage,
}

#[derive(Clone, Copy)]
enum Prefix {
    Lock,
    Unlock,
}

impl Reader {
    fn wanted(&self) -> Wanted {
        match self.after {
            After::Beginning => Wanted::Usage,
            After::Hat => Wanted::Letter,
            After::Letter(_) => Wanted::Dot,
            After::Usage if self.outer.is_empty() => Wanted::SignOrEnd,
            After::Usage => Wanted::SignOrBracket,
        }
    }

    fn wrong(&self, at: usize) -> Wrong {
        Wrong {
            at,
            wanted: self.wanted(),
            depth: self.depth,
        }
    }

    /// Reads one byte; none where it may not stand.
    fn take<L: Law>(&mut self, byte: u8) -> Option<()> {
        self.after = match (self.after, byte) {
            (After::Beginning, b'0') => self.operand::<L>(Usage::Zero),
            (After::Beginning, b'(') => self.open(),
            (After::Beginning, b'^') => After::Hat,
            (After::Beginning, b'L') => After::Letter(Prefix::Lock),
            (After::Hat, b'L') => After::Letter(Prefix::Unlock),
            (After::Letter(prefix), b'.') => {
                self.level.prefixes.push(prefix);
                After::Beginning
            }
            (After::Usage, b')') => self.close::<L>()?,
            (After::Usage, sign) if sign == L::TIGHTER => After::Beginning,
            (After::Usage, sign) if sign == L::LOOSER => {
                self.level.loosen::<L>();
                After::Beginning
            }
            _ => return None,
        };
        Some(())
    }

    fn operand<L: Law>(&mut self, usage: Usage) -> After {
        self.level.operand::<L>(usage);
        After::Usage
    }

    fn open(&mut self) -> After {
        self.outer.push(mem::take(&mut self.level));
        self.depth = self.depth.max(self.outer.len());
        After::Beginning
    }

    fn close<L: Law>(&mut self) -> Option<After> {
        let inner = mem::replace(&mut self.level, self.outer.pop()?);
        Some(self.operand::<L>(inner.whole::<L>()))
    }
}

/// What has been read since a bracket was opened.
#[derive(Default)]
struct Level {
    /// Joined by the looser sign.
    loose: Option<Usage>,
    /// Joined by the tighter sign, behind the last looser one.
    tight: Option<Usage>,
    /// Those that wait for their usage.
    prefixes: Vec<Prefix>,
}

impl Level {
    fn operand<L: Law>(&mut self, usage: Usage) {
        let prefixes = self.prefixes.drain(..).rev();
        let usage = prefixes.fold(usage, |u, prefix| match prefix {
            Prefix::Lock => u.lock(),
            Prefix::Unlock => u.unlock(),
        });
        self.tight = Some(joined(self.tight.take(), L::TIGHTER, usage));
    }

    /// At a looser sign, and at the end.
    fn loosen<L: Law>(&mut self) {
        let usage = self.tight.take().expect("a usage stands before a sign");
        self.loose = Some(joined(self.loose.take(), L::LOOSER, usage));
    }

    fn whole<L: Law>(mut self) -> Usage {
        self.loosen::<L>();
        self.loose.expect("it was just put there")
    }
}

/// Both signs group to the left.
fn joined(left: Option<Usage>, sign: u8, right: Usage) -> Usage {
    match left {
        None => right,
        Some(left) if sign == b'*' => left.parallel(right),
        Some(left) => left.choice(right),
    }
}
