//! A Code attribute (4.7.3), and the lines that it tells of (4.7.12).

use crate::class::Attribute;
use crate::constants::Constants;
use crate::damage::Damage;
use crate::reader::Reader;

/// A method's code.
#[derive(Clone, Debug, PartialEq, Eq)]
pub struct Code<'a> {
    /// The whole attribute, from the index of its name on.
    pub attribute: &'a [u8],
    /// The attribute's offset in the file.
    pub at: usize,
    /// How deep the stack may be.
    pub max_stack: u16,
    /// How many variables there are.
    pub max_locals: u16,
    /// The instructions.
    pub bytes: &'a [u8],
    /// The exception table.
    pub handlers: Vec<Handler>,
    /// The lines, as the tables of them have them.
    pub lines: Vec<Line>,
}

/// An entry of the exception table.
#[derive(Clone, Copy, Debug, PartialEq, Eq)]
pub struct Handler {
    /// The first offset that it covers.
    pub start: u16,
    /// The first that it no longer covers.
    pub end: u16,
    /// Where it goes.
    pub handler: u16,
    /// The index of the class that it catches; 0 for all.
    pub catch: u16,
}

/// Where a line's code begins.
#[derive(Clone, Copy, Debug, PartialEq, Eq)]
#[allow(missing_docs, reason = "said above")]
pub struct Line {
    pub offset: u16,
    pub line: u16,
}

impl<'a> Code<'a> {
    pub(crate) fn read(
        attribute: &'a [u8],
        at: usize,
        mut from: Reader<'a>,
        constants: &Constants<'a>,
    ) -> Result<Code<'a>, Damage> {
        let (max_stack, max_locals) = (from.u2()?, from.u2()?);
        let length = from.length()?;
        let bytes = from.bytes(length)?;
        let count = from.u2()?;
        let handlers = (0..count)
            .map(|_| handler(&mut from))
            .collect::<Result<_, _>>()?;
        let mut lines = vec![];
        for attribute in Attribute::all(&mut from, constants)? {
            if attribute.name == b"LineNumberTable" {
                lines.extend(line_table(attribute.inside)?);
            }
        }
        from.end()?;
        Ok(Code {
            attribute,
            at,
            max_stack,
            max_locals,
            bytes,
            handlers,
            lines,
        })
    }

    /// The line of the code at this offset, if one is told.
    pub fn line(&self, offset: usize) -> Option<u16> {
        let before = self
            .lines
            .iter()
            .filter(|l| usize::from(l.offset) <= offset);
        before.max_by_key(|line| line.offset).map(|line| line.line)
    }
}

fn handler(from: &mut Reader) -> Result<Handler, Damage> {
    Ok(Handler {
        start: from.u2()?,
        end: from.u2()?,
        handler: from.u2()?,
        catch: from.u2()?,
    })
}

fn line_table(mut from: Reader) -> Result<Vec<Line>, Damage> {
    let count = from.u2()?;
    let line = |_| {
        let (offset, line) = (from.u2()?, from.u2()?);
        Ok(Line { offset, line })
    };
    (0..count).map(line).collect()
}
