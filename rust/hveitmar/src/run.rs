//! A list of steps run on a bundle that is accepted.

use crate::{Refusal, Verdict};
use std::error::Error;
use std::fmt::{self, Display, Formatter};

/// How many bytes a state is.
pub const STATE_BYTES: usize = 2_537;

/// What a list came to.
///
/// ```
/// # let folder = concat!(env!("CARGO_MANIFEST_DIR"), "/../../cases/");
/// let accepted = std::fs::read(format!("{folder}a.bundle"))?;
/// assert_eq!(hveitmar::run(&accepted, &[0; 8]).to_string(), "ran 7");
/// let refused = std::fs::read(format!("{folder}b.bundle"))?;
/// assert_eq!(
///     hveitmar::run(&refused, &[0; 8]).to_string(),
///     "refused 19 verdict 9 class 0 address 5 why 3"
/// );
/// # Ok::<(), std::io::Error>(())
/// ```
#[derive(Clone, Debug, PartialEq, Eq)]
pub struct Run {
    /// How many steps answered 0, 1 or 2; or why the bundle is refused, and
    /// nothing was run.
    pub steps: Result<u64, Refusal>,
    /// The state after the last step, as the program `hveitmar_trace` takes it.
    /// Where nothing was run it has no live thread and no object: all is 0.
    pub state: [u8; STATE_BYTES],
}

/// Why a list was not run.
#[derive(Clone, Copy, Debug, PartialEq, Eq)]
pub enum RunRefusal {
    /// 19: the bundle is not accepted.
    Bundle(Refusal),
    /// 24: the lent bytes have no room for a state.
    NoRoom,
}

impl RunRefusal {
    /// The document's number, 19 or 24.
    pub fn number(&self) -> u8 {
        match self {
            RunRefusal::Bundle(_) => 19,
            RunRefusal::NoRoom => 24,
        }
    }

    /// Reads the C call's number, all of it: what is no answer of the law is
    /// none here.
    pub(crate) fn unpacked(packed: u64) -> Option<Result<u64, RunRefusal>> {
        match (packed as u8, packed >> 8) {
            (0, steps) => Some(Ok(steps)),
            (19, verdict) => match Verdict::unpacked(verdict)? {
                Verdict::Accepted { .. } => None,
                Verdict::Refused(refusal) => Some(Err(RunRefusal::Bundle(refusal))),
            },
            (24, 0) => Some(Err(RunRefusal::NoRoom)),
            _ => None,
        }
    }
}

impl Display for RunRefusal {
    fn fmt(&self, to: &mut Formatter) -> fmt::Result {
        write!(to, "refused {}", self.number())?;
        let RunRefusal::Bundle(refusal) = self else {
            return Ok(());
        };
        let (number, class, address) = (refusal.number(), refusal.class(), refusal.address());
        write!(to, " verdict {number} class {class} address {address}")?;
        match refusal.why() {
            Some(why) => write!(to, " why {}", why.number()),
            None => Ok(()),
        }
    }
}

impl Error for RunRefusal {}

/// The line that the tool prints.
impl Display for Run {
    fn fmt(&self, to: &mut Formatter) -> fmt::Result {
        match self.steps {
            Ok(steps) => write!(to, "ran {steps}"),
            Err(refusal) => RunRefusal::Bundle(refusal).fmt(to),
        }
    }
}

#[cfg(test)]
mod tests {
    use super::*;

    #[test]
    fn numbers_are_read_as_they_are_written() {
        let no_trailer = Err(RunRefusal::Bundle(Refusal::Trailer));
        let told = [
            (0, Ok(0), ""),
            (7 << 8, Ok(7), ""),
            (u64::MAX << 8, Ok((1 << 56) - 1), ""),
            (
                19 | 2 << 8,
                no_trailer,
                "refused 19 verdict 2 class 0 address 0",
            ),
            (24, Err(RunRefusal::NoRoom), "refused 24"),
        ];
        for (packed, wanted, text) in told {
            let read = RunRefusal::unpacked(packed).expect("an answer");
            assert_eq!(read, wanted);
            assert_eq!(read.err().map_or("".to_string(), |e| e.to_string()), text);
        }
    }

    /// The verdict lies above the low byte, and its why above bit 40.
    #[test]
    fn whys_are_read() {
        let told = |why: u64| {
            let rule = 9 | 3 << 8 | 256 << 16 | why << 32;
            RunRefusal::unpacked(19 | rule << 8).map(|read| read.expect_err("a refusal"))
        };
        for why in 0..=3 {
            let line = format!("refused 19 verdict 9 class 3 address 256 why {why}");
            assert_eq!(told(why).expect("an answer").to_string(), line);
        }
        for stray in [4, 255, 1 << 8, 1 << 23] {
            assert_eq!(told(stray), None);
        }
    }

    #[test]
    fn other_numbers_are_no_answer() {
        // Accepted and not run, a verdict that is none, 24 with something
        // behind it, other answers.
        let stray = [19, 19 | 1 << 16, 19 | 11 << 8, 24 | 1 << 8, 1, 17, 255];
        let all = stray.iter();
        assert!(all
            .filter_map(|&packed| RunRefusal::unpacked(packed))
            .next()
            .is_none());
    }
}
