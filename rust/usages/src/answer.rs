//! What is answered of a text: its numbers, or a refusal.

use crate::law::{AsWritten, Law};
use crate::reader::read_by;
use std::fmt::{self, Display, Formatter};

/// 0 and the numbers of a usage; or 40 to 43, and no numbers.
#[derive(Clone, Copy, Debug, PartialEq, Eq)]
pub struct Answer {
    pub number: u8,
    pub dip: i32,
    pub end: i32,
    pub reliable: bool,
}

impl Answer {
    pub fn refused(number: u8) -> Answer {
        Answer {
            number,
            dip: 0,
            end: 0,
            reliable: false,
        }
    }
}

/// The line that the tool prints.
impl Display for Answer {
    fn fmt(&self, to: &mut Formatter) -> fmt::Result {
        let Answer { dip, end, .. } = self;
        match (self.number, self.reliable) {
            (0, true) => write!(to, "dip {dip} end {end} reliable yes"),
            (0, false) => write!(to, "dip {dip} end {end} reliable no"),
            (number, _) => write!(to, "refused {number}"),
        }
    }
}

/// Answers by the request, the lowest number that applies.
pub fn answer(text: &[u8]) -> Answer {
    answer_by::<AsWritten>(text)
}

pub(crate) fn answer_by<L: Law>(text: &[u8]) -> Answer {
    judge::<L>(text).unwrap_or_else(Answer::refused)
}

fn judge<L: Law>(text: &[u8]) -> Result<Answer, u8> {
    if text.len() > L::LONGEST {
        return Err(40);
    }
    let reading = read_by::<L>(text).map_err(|_| 41)?;
    if reading.depth > L::DEEPEST {
        return Err(42);
    }
    let numbers = reading.usage.numbers_by::<L>();
    if !L::in_range(numbers) {
        return Err(43);
    }
    Ok(Answer {
        number: 0,
        dip: -numbers.min,
        end: numbers.fin,
        reliable: L::is_reliable(numbers),
    })
}
