//! What is said of a usage's text.

use std::error::Error;
use std::fmt::{self, Display, Formatter};

/// The numbers of a usage.
///
/// Its text is the line that the tool prints.
///
/// ```
/// use hveitmar::Usage;
///
/// let usage = Usage { dip: 1, end: -1, reliable: false };
/// assert_eq!(usage.to_string(), "dip 1 end -1 reliable no");
/// ```
#[derive(Clone, Copy, Debug, PartialEq, Eq)]
pub struct Usage {
    /// How far below its present count a thread may go, 0 to 63.
    pub dip: u8,
    /// The highest net change at the end, -63 to 63.
    pub end: i8,
    /// Whether it is safe for an object that the thread does not hold.
    pub reliable: bool,
}

/// Why a text has no numbers; the first of these that applies.
///
/// ```
/// use hveitmar::UsageRefusal;
///
/// let refusal = UsageRefusal::from_number(42).expect("a refusal");
/// assert_eq!(refusal, UsageRefusal::Depth);
/// assert_eq!(refusal.to_string(), "refused 42");
/// assert_eq!(UsageRefusal::from_number(44), None);
/// ```
#[derive(Clone, Copy, Debug, PartialEq, Eq)]
pub enum UsageRefusal {
    /// 40: it has more than 256 bytes.
    Length = 40,
    /// 41: it is no usage.
    Text = 41,
    /// 42: its brackets are nested more than 16 deep.
    Depth = 42,
    /// 43: its dip or its end is outside an entry's range.
    Range = 43,
}

/// The end is written with so much added, as in an entry.
const END_BIAS: u8 = 64;

impl Usage {
    /// Reads the C call's number, all of it: what is no answer of the law is
    /// none here.
    pub(crate) fn unpacked(packed: u64) -> Option<Result<Usage, UsageRefusal>> {
        let [number, dip, end, reliable, 0, 0, 0, 0] = packed.to_le_bytes() else {
            return None;
        };
        match (number, dip, end, reliable) {
            (0, 0..=63, 1..=127, 0 | 1) => Some(Ok(Usage {
                dip,
                end: end.wrapping_sub(END_BIAS) as i8,
                reliable: reliable == 1,
            })),
            (_, 0, END_BIAS, 0) => UsageRefusal::from_number(number).map(Err),
            _ => None,
        }
    }
}

impl Display for Usage {
    fn fmt(&self, to: &mut Formatter) -> fmt::Result {
        let Usage { dip, end, reliable } = self;
        let reliable = if *reliable { "yes" } else { "no" };
        write!(to, "dip {dip} end {end} reliable {reliable}")
    }
}

impl UsageRefusal {
    /// Every refusal, in the order of their numbers.
    pub const ALL: [UsageRefusal; 4] = [
        UsageRefusal::Length,
        UsageRefusal::Text,
        UsageRefusal::Depth,
        UsageRefusal::Range,
    ];

    /// The document's number, 40 to 43.
    pub fn number(self) -> u8 {
        self as u8
    }

    /// The refusal of this number, if there is one.
    pub fn from_number(number: u8) -> Option<UsageRefusal> {
        UsageRefusal::ALL
            .into_iter()
            .find(|refusal| refusal.number() == number)
    }
}

impl Display for UsageRefusal {
    fn fmt(&self, to: &mut Formatter) -> fmt::Result {
        write!(to, "refused {}", self.number())
    }
}

impl Error for UsageRefusal {}

#[cfg(test)]
mod tests {
    use super::*;

    #[test]
    fn numbers_are_read_as_they_are_written() {
        let usage = Usage::unpacked(2 << 8 | 62 << 16).expect("an answer");
        assert_eq!(
            usage.expect("a usage").to_string(),
            "dip 2 end -2 reliable no"
        );
        let reliable = Usage::unpacked(64 << 16 | 1 << 24).expect("an answer");
        assert!(reliable.expect("a usage").reliable);
        let refused = Usage::unpacked(43 | 64 << 16);
        assert_eq!(refused, Some(Err(UsageRefusal::Range)));
    }

    #[test]
    fn other_numbers_are_no_answer() {
        let stray = [
            0,
            64 << 8 | 64 << 16,
            128 << 16,
            64 << 16 | 2 << 24,
            64 << 16 | 1 << 32,
            39 | 64 << 16,
            44 | 64 << 16,
            41,
            41 | 1 << 8 | 64 << 16,
            41 | 64 << 16 | 1 << 24,
        ];
        assert!(stray
            .iter()
            .all(|&packed| Usage::unpacked(packed).is_none()));
    }
}
