//! Trailer, directory, records and instructions: verdicts 1 to 7.

use crate::entries::Raw;
use crate::instructions::{ends_path, Bounds, MAX_FIELDS};
use crate::known::Known;
use std::fmt::{self, Display, Formatter};

pub use crate::instructions::{Addr, Field, Instr, Var};

pub const MAX_LENGTH: usize = 65_535;
pub const MAX_CLASSES: usize = 8;
pub const TRAILER: usize = 8;
pub const DIRECTORY_ENTRY: usize = 8;
pub const MAGIC: [u8; 2] = [0x4C, 0x4B];
/// The descriptor of Int, for arguments and fields; any other is a class number.
pub const INT: u8 = 0xFF;

/// What the verifier says: number, the class and address it names, and for
/// verdict 9 why the rule fails there; 0 with every other.
///
/// Aligned so that it is moved as one word: a refusal by 2 takes a quarter of
/// the time that it takes with six bytes.
#[derive(Clone, Copy, Debug, PartialEq, Eq)]
#[repr(align(8))]
pub struct Verdict {
    pub number: u8,
    pub class: u8,
    pub address: u16,
    pub why: u8,
}

impl Verdict {
    pub const fn new(number: u8, class: u8, address: u16) -> Verdict {
        Verdict {
            number,
            class,
            address,
            why: 0,
        }
    }

    pub const fn because(self, why: u8) -> Verdict {
        Verdict { why, ..self }
    }
}

/// The program's line.
impl Display for Verdict {
    fn fmt(&self, to: &mut Formatter) -> fmt::Result {
        let Verdict {
            number,
            class,
            address,
            why,
        } = self;
        match number {
            0 => write!(to, "accepted classes {class}"),
            9 => write!(to, "refused 9 class {class} address {address} why {why}"),
            _ => write!(to, "refused {number} class {class} address {address}"),
        }
    }
}

/// The directory's numbers for one class.
#[derive(Clone, Copy, Debug, PartialEq, Eq)]
pub struct Limits {
    pub offset: usize,
    pub arguments: usize,
    pub variables: usize,
    pub stack: usize,
    pub fields: usize,
    pub code: usize,
}

/// One class: the parts of its record, read in place.
#[derive(Clone, Copy, Debug, Default)]
pub struct Class<'a> {
    /// Where its record begins in the bundle.
    pub offset: usize,
    pub record: &'a [u8],
    pub arguments: &'a [u8],
    pub fields: &'a [u8],
    pub variables: usize,
    pub stack_limit: usize,
    code: &'a [Raw],
    rows: &'a [u8],
}

/// One row, read in place; `stack` is its part in use, top first.
#[derive(Clone, Copy, Debug)]
pub struct Row<'a> {
    pub variables: &'a [Raw],
    pub stack: &'a [Raw],
}

/// A row before its depth is known to be within K.
#[derive(Clone, Copy, Debug)]
pub struct RawRow<'a> {
    pub variables: &'a [Raw],
    pub depth: usize,
    pub stack: &'a [Raw],
}

/// A bundle that draws none of the verdicts 1 to 6.
#[derive(Clone, Copy, Debug)]
pub struct Bundle<'a> {
    classes: [Class<'a>; MAX_CLASSES],
    count: u8,
    exception: u8,
}

/// What the trailer says of a bundle without the verdicts 1 to 3.
struct Trailer {
    directory: usize,
    count: u8,
    exception: u8,
}

fn two(bytes: &[u8], at: usize) -> usize {
    usize::from(u16::from_be_bytes([bytes[at], bytes[at + 1]]))
}

/// V entries, the depth, K entries.
fn row_length(variables: usize, stack: usize) -> usize {
    4 * variables + 1 + 4 * stack
}

impl Limits {
    fn read(entry: &[u8]) -> Limits {
        Limits {
            offset: two(entry, 0),
            arguments: usize::from(entry[2]),
            variables: usize::from(entry[3]),
            stack: usize::from(entry[4]),
            fields: usize::from(entry[5]),
            code: two(entry, 6),
        }
    }

    /// The limits of the directory; class 0 is main and takes no argument.
    pub(crate) fn hold(&self, class: u8) -> bool {
        self.arguments <= self.variables
            && self.variables <= 16
            && self.stack <= 16
            && self.fields <= MAX_FIELDS
            && (1..=256).contains(&self.code)
            && (class != 0 || self.arguments == 0)
    }

    pub fn row_length(&self) -> usize {
        row_length(self.variables, self.stack)
    }

    pub fn record_length(&self) -> usize {
        self.arguments + self.fields + 4 * self.code + self.code * self.row_length()
    }
}

impl<'a> RawRow<'a> {
    /// Reads the bytes of a row with so many variables.
    fn read(row: &'a [u8], variables: usize) -> RawRow<'a> {
        let (variables, rest) = row.split_known(4 * variables);
        RawRow {
            variables: variables.as_chunks().0,
            depth: usize::from(*rest.known(0)),
            stack: rest.known(1..).as_chunks().0,
        }
    }
}

impl<'a> Class<'a> {
    fn from_record(record: &'a [u8], limits: &Limits) -> Class<'a> {
        let (arguments, rest) = record.split_known(limits.arguments);
        let (fields, rest) = rest.split_known(limits.fields);
        let (code, rows) = rest.split_known(4 * limits.code);
        Class {
            offset: limits.offset,
            record,
            arguments,
            fields,
            variables: limits.variables,
            stack_limit: limits.stack,
            code: code.as_chunks().0,
            rows,
        }
    }

    /// k, which is also the last address.
    pub fn code_length(&self) -> u16 {
        self.code.len() as u16
    }

    fn row_length(&self) -> usize {
        row_length(self.variables, self.stack_limit)
    }

    /// All rows, from address 1 on.
    pub fn raw_rows(&self) -> impl Iterator<Item = RawRow<'a>> + use<'a> {
        let variables = self.variables;
        let rows = self.rows.chunks_exact(self.row_length());
        rows.map(move |row| RawRow::read(row, variables))
    }

    pub fn raw_row(&self, address: Addr) -> RawRow<'a> {
        let length = self.row_length();
        let start = (usize::from(address.0) - 1) * length;
        RawRow::read(self.rows.known(start..start + length), self.variables)
    }

    /// A row that verdict 8 has found well formed.
    pub fn row(&self, address: Addr) -> Row<'a> {
        let raw = self.raw_row(address);
        Row {
            variables: raw.variables,
            stack: raw.stack.known(..raw.depth),
        }
    }

    /// Where an entry of a row stands in the bundle, by its place among the
    /// variables and then the stack; between these is the depth.
    pub fn entry_offset(&self, address: Addr, place: usize) -> usize {
        let rows = self.offset + self.record.len() - self.rows.len();
        let row = rows + (usize::from(address.0) - 1) * self.row_length();
        row + 4 * place + usize::from(place >= self.variables)
    }

    /// The first address at which the table is broken (verdict 7).
    fn table_breach(&self, classes: u8, fields: u32) -> Option<u16> {
        let bounds = Bounds::new(self.variables, classes, fields, self.code_length());
        let broken = self.code.iter().position(|&raw| !bounds.allow(raw));
        match broken {
            Some(index) => Some(index as u16 + 1),
            // Nothing may run past address k.
            None if !self.code.last().is_some_and(|&raw| ends_path(raw)) => {
                Some(self.code_length())
            }
            None => None,
        }
    }

    /// The instruction at an address of code that verdict 7 has passed. Inlined,
    /// so that it is told and acted upon by one jump, not by two.
    #[inline(always)]
    pub fn instruction(&self, address: Addr) -> Instr {
        Instr::read(*self.code.known(usize::from(address.0) - 1))
    }
}

impl<'a> Bundle<'a> {
    /// Verdicts 1 to 6: 1 to 3 first, then 4, 5, 6 class by class.
    pub fn open(bytes: &'a [u8]) -> Result<Bundle<'a>, Verdict> {
        let Trailer {
            directory,
            count,
            exception,
        } = read_trailer(bytes)?;
        let body = &bytes[..bytes.len() - TRAILER];
        let mut classes = [Class::default(); MAX_CLASSES];
        for class in 0..count {
            let start = directory + DIRECTORY_ENTRY * usize::from(class);
            let entry = &body[start..start + DIRECTORY_ENTRY];
            classes[usize::from(class)] = read_class(body, entry, class, count)?;
        }
        Ok(Bundle {
            classes,
            count,
            exception,
        })
    }

    /// Verdicts 1 to 7, which is all that the machine asks of a bundle.
    pub fn open_with_code(bytes: &'a [u8]) -> Result<Bundle<'a>, Verdict> {
        let bundle = Bundle::open(bytes)?;
        bundle.check_code()?;
        Ok(bundle)
    }

    /// Verdict 7 over all classes and addresses.
    fn check_code(&self) -> Result<(), Verdict> {
        let fields = self.field_operands();
        for (number, class) in self.classes() {
            if let Some(address) = class.table_breach(self.count, fields) {
                return Err(Verdict::new(7, number, address));
            }
        }
        Ok(())
    }

    /// A bit for each operand that names a field.
    fn field_operands(&self) -> u32 {
        self.classes()
            .map(|(number, class)| ((1 << class.fields.len()) - 1) << (MAX_FIELDS as u8 * number))
            .sum()
    }

    pub fn count(&self) -> u8 {
        self.count
    }

    /// The class of object 0 and of all that is thrown.
    pub fn exception(&self) -> u8 {
        self.exception
    }

    pub fn class(&self, number: u8) -> &Class<'a> {
        self.classes.known(usize::from(number))
    }

    /// What a field may hold: Int, or references of a class.
    pub fn descriptor(&self, field: Field) -> u8 {
        *self
            .class(field.class)
            .fields
            .known(usize::from(field.number))
    }

    pub fn classes(&self) -> impl Iterator<Item = (u8, &Class<'a>)> {
        (0..self.count).zip(&self.classes)
    }
}

/// Verdicts 1 to 3.
fn read_trailer(bytes: &[u8]) -> Result<Trailer, Verdict> {
    let length = bytes.len();
    if !(TRAILER..=MAX_LENGTH).contains(&length) {
        return Err(Verdict::new(1, 0, 0));
    }
    let trailer = &bytes[length - TRAILER..];
    if trailer[6..] != MAGIC || two(trailer, 4) != length {
        return Err(Verdict::new(2, 0, 0));
    }
    let (directory, count, exception) = (two(trailer, 0), trailer[2], trailer[3]);
    let end = directory + DIRECTORY_ENTRY * usize::from(count);
    if !(1..=MAX_CLASSES).contains(&usize::from(count))
        || end > length - TRAILER
        || exception >= count
    {
        return Err(Verdict::new(3, 0, 0));
    }
    Ok(Trailer {
        directory,
        count,
        exception,
    })
}

/// Verdicts 4 to 6 of one class; `body` is all before the trailer.
fn read_class<'a>(
    body: &'a [u8],
    entry: &[u8],
    class: u8,
    count: u8,
) -> Result<Class<'a>, Verdict> {
    let limits = Limits::read(entry);
    if !limits.hold(class) {
        return Err(Verdict::new(4, class, 0));
    }
    let record = body
        .get(limits.offset..limits.offset + limits.record_length())
        .ok_or(Verdict::new(5, class, 0))?;
    let view = Class::from_record(record, &limits);
    let mut descriptors = view.arguments.iter().chain(view.fields);
    if descriptors.any(|&d| d != INT && d >= count) {
        return Err(Verdict::new(6, class, 0));
    }
    Ok(view)
}

/// The class lookup: the record's part of the bundle, empty when the bundle
/// draws verdict 1 to 6 or has no such class.
pub fn find_record(bytes: &[u8], class: u8) -> &[u8] {
    match Bundle::open(bytes) {
        Ok(bundle) if class < bundle.count => bundle.class(class).record,
        _ => &[],
    }
}
