//! How many objects a thread holds.

use crate::Answer;

/// The answer to the question how many objects a thread holds.
///
/// ```
/// use hveitmar::{held, Answer, Held};
///
/// assert_eq!(held(&[], &[0; 2_537], 0), Held::Refused(Answer::BadBundle));
/// assert_eq!(held(&[], &[0; 2_536], 0), Held::NoState);
/// ```
#[derive(Clone, Copy, Debug, PartialEq, Eq)]
pub enum Held {
    /// So many, 0 to 32.
    Objects(u8),
    /// 17, 18 or 5, as a step draws them.
    Refused(Answer),
    /// The bytes are no state.
    NoState,
}

impl Held {
    /// What the C call gives, without its low byte, where the bytes are no
    /// state.
    const NO_STATE: u32 = 0xFF_FF00;

    /// Reads the C call's number, all of it: what is no answer of the law is
    /// none here.
    pub(crate) fn unpacked(packed: u32) -> Option<Held> {
        match (packed >> 8, packed as u8) {
            (0, number @ 0..=32) => Some(Held::Objects(number)),
            (5, 0) => Some(Held::Refused(Answer::NotLive)),
            (17, 0) => Some(Held::Refused(Answer::BadBundle)),
            (18, 0) => Some(Held::Refused(Answer::BadState)),
            (Held::NO_STATE, 0) => Some(Held::NoState),
            _ => None,
        }
    }
}

#[cfg(test)]
mod tests {
    use super::*;

    #[test]
    fn numbers_are_read_as_they_are_written() {
        let told = [
            (0, Held::Objects(0)),
            (32, Held::Objects(32)),
            (5 << 8, Held::Refused(Answer::NotLive)),
            (17 << 8, Held::Refused(Answer::BadBundle)),
            (18 << 8, Held::Refused(Answer::BadState)),
            (65_535 << 16, Held::NoState),
        ];
        for (packed, held) in told {
            assert_eq!(Held::unpacked(packed), Some(held));
        }
    }

    #[test]
    fn other_numbers_are_no_answer() {
        let stray = [
            33,
            1 << 8,
            5 << 8 | 1,
            18 << 8 | 32,
            14 << 8,
            18 << 16,
            65_535 << 16 | 1,
            u32::MAX,
        ];
        assert!(stray.iter().all(|&packed| Held::unpacked(packed).is_none()));
    }
}
