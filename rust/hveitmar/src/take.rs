//! A method taken from a class file.

use std::error::Error;
use std::fmt::{self, Display, Formatter};

/// So many instructions a method has at most; each is four bytes.
pub const MOST_TAKEN: usize = 256;

/// Why a method is not taken; the first of these that applies. The offset is
/// that of the first offender in the code.
///
/// Its text is the line that the tool prints.
///
/// ```
/// use hveitmar::TakeRefusal;
///
/// let refusal = TakeRefusal::Instruction { offset: 5 };
/// assert_eq!((refusal.number(), refusal.offset()), (31, 5));
/// assert_eq!(refusal.to_string(), "refused 31 offset 5");
/// ```
#[derive(Clone, Copy, Debug, PartialEq, Eq)]
pub enum TakeRefusal {
    /// 30: the input ends before the exception table does, or there is no code.
    Input,
    /// 31: an opcode that is not taken, an instruction that is cut off, or a
    /// class that is not in the list.
    Instruction {
        /// The instruction's.
        offset: u32,
    },
    /// 32: a branch or a handler goes to a place where no instruction begins,
    /// or to nops that nothing is written after.
    Place {
        /// The branch's, or the handler's.
        offset: u32,
    },
    /// 33: there are more than 256 instructions.
    Number {
        /// That of the first that is too many.
        offset: u32,
    },
    /// 34: the buffer is too short.
    Room {
        /// That of the first that doesn't fit.
        offset: u32,
    },
}

impl TakeRefusal {
    /// The document's number, 30 to 34.
    pub fn number(&self) -> u8 {
        match self {
            TakeRefusal::Input => 30,
            TakeRefusal::Instruction { .. } => 31,
            TakeRefusal::Place { .. } => 32,
            TakeRefusal::Number { .. } => 33,
            TakeRefusal::Room { .. } => 34,
        }
    }

    /// The first offender's offset in the code; 0 with 30.
    pub fn offset(&self) -> u32 {
        match *self {
            TakeRefusal::Input => 0,
            TakeRefusal::Instruction { offset }
            | TakeRefusal::Place { offset }
            | TakeRefusal::Number { offset }
            | TakeRefusal::Room { offset } => offset,
        }
    }

    /// Reads the C call's number, all of it: what is no answer of the law is
    /// none here.
    pub(crate) fn unpacked(packed: u64) -> Option<Result<usize, TakeRefusal>> {
        let (number, offset) = (packed as u32, (packed >> 32) as u32);
        Some(match number {
            0 => match offset as usize {
                count @ 0..=MOST_TAKEN => Ok(count),
                _ => return None,
            },
            30 if offset == 0 => Err(TakeRefusal::Input),
            31 => Err(TakeRefusal::Instruction { offset }),
            32 => Err(TakeRefusal::Place { offset }),
            33 => Err(TakeRefusal::Number { offset }),
            34 => Err(TakeRefusal::Room { offset }),
            _ => return None,
        })
    }
}

impl Display for TakeRefusal {
    fn fmt(&self, to: &mut Formatter) -> fmt::Result {
        write!(to, "refused {} offset {}", self.number(), self.offset())
    }
}

impl Error for TakeRefusal {}

#[cfg(test)]
mod tests {
    use super::*;

    #[test]
    fn numbers_are_read_as_they_are_written() {
        let told = [
            (0, Ok(0)),
            (256 << 32, Ok(256)),
            (30, Err(TakeRefusal::Input)),
            (31, Err(TakeRefusal::Instruction { offset: 0 })),
            (
                32 | 65_535 << 32,
                Err(TakeRefusal::Place { offset: 65_535 }),
            ),
            (33 | 7 << 32, Err(TakeRefusal::Number { offset: 7 })),
            (
                34 | u64::from(u32::MAX) << 32,
                Err(TakeRefusal::Room { offset: u32::MAX }),
            ),
        ];
        for (packed, wanted) in told {
            assert_eq!(TakeRefusal::unpacked(packed), Some(wanted));
        }
    }

    #[test]
    fn other_numbers_are_no_answer() {
        let stray = [257 << 32, 30 | 1 << 32, 1, 29, 35, 31 | 1 << 8, 255];
        let mut read = stray.into_iter().map(TakeRefusal::unpacked);
        assert!(read.all(|answer| answer.is_none()));
    }
}
