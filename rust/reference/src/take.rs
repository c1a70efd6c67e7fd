//! A method's instructions, taken from its Code attribute: request Q-9.
//!
//! All instructions are read first (31); then come the places that branches
//! and handlers name (32), then how many there are (33) and the room for them
//! (34), and only then is anything written.

mod attribute;
mod instructions;
mod law;
mod method;
pub mod slips;

use law::{AsWritten, Law};
use method::Method;

pub use attribute::{Attribute, Entry};
pub use instructions::{Does, Instruction};

/// Four bytes, as a record has them.
pub type Row = [u8; 4];

/// 0 and how many instructions were written; or 30 to 34, and the first
/// offender's offset in the code.
#[derive(Clone, Copy, Debug, PartialEq, Eq)]
pub struct Answer {
    pub number: u8,
    pub value: u32,
}

impl Answer {
    fn refused(number: u8, offset: u32) -> Answer {
        Answer {
            number,
            value: offset,
        }
    }
}

/// Takes the method of a Code attribute: writes its instructions into `out`,
/// whose rest, or all of it on a refusal, stays as it is. A class number is
/// the first place of an index among the first eight of `classes`.
pub fn take(attribute: &[u8], classes: &[u16], out: &mut [u8]) -> Answer {
    take_by::<AsWritten>(attribute, classes, out)
}

fn take_by<L: Law>(attribute: &[u8], classes: &[u16], out: &mut [u8]) -> Answer {
    match rows::<L>(attribute, classes, out.len()) {
        Ok(rows) => {
            L::write(&rows, out);
            Answer {
                number: 0,
                value: rows.len() as u32,
            }
        }
        Err(refusal) => {
            L::leave(refusal, out);
            refusal
        }
    }
}

/// What is written where there is room for so many bytes.
fn rows<L: Law>(attribute: &[u8], classes: &[u16], room: usize) -> Result<Vec<Row>, Answer> {
    let attribute = L::attribute(attribute).ok_or(Answer::refused(30, 0))?;
    let method = Method::read::<L>(&attribute, classes)?;
    L::judge(&method, room)?;
    Ok(method.rows::<L>())
}

/// The instructions of a Code attribute up to the first that isn't taken; none
/// where the attribute is cut short or has no code.
pub fn instructions(attribute: &[u8], classes: &[u16]) -> Vec<Instruction> {
    let Some(attribute) = AsWritten::attribute(attribute) else {
        return vec![];
    };
    let (method, _) = Method::read_up_to::<AsWritten>(&attribute, classes);
    method.instructions
}
