//! A Code attribute as the Java Virtual Machine Specification lays it out
//! (4.7.3), as far as the end of its exception table.

/// What stands before the code's length: name, length, stack and locals, none
/// of which is read.
pub(super) const BEFORE_LENGTH: usize = 10;

/// How many bytes an entry of the exception table has.
pub(super) const ENTRY: usize = 8;

/// The code and the exception table.
#[derive(Clone, Copy, Debug, PartialEq, Eq)]
pub struct Attribute<'a> {
    pub code: &'a [u8],
    pub table: &'a [u8],
    /// All bytes from the code's first one on.
    pub(super) from_code: &'a [u8],
}

/// One entry of the exception table.
#[derive(Clone, Copy, Debug, PartialEq, Eq)]
pub struct Entry {
    pub start: u16,
    pub end: u16,
    pub handler: u16,
    pub catch: u16,
}

impl<'a> Attribute<'a> {
    /// None where the input ends before the exception table does, or where
    /// there is no code.
    pub fn read(bytes: &'a [u8]) -> Option<Attribute<'a>> {
        let (length, from_code) = bytes.get(BEFORE_LENGTH..)?.split_first_chunk()?;
        let length = usize::try_from(u32::from_be_bytes(*length)).ok()?;
        Attribute::of_length(from_code, length).filter(|attribute| !attribute.code.is_empty())
    }

    /// The code has so many bytes.
    pub(super) fn of_length(from_code: &'a [u8], length: usize) -> Option<Attribute<'a>> {
        let (code, behind) = from_code.split_at_checked(length)?;
        let (count, behind) = behind.split_first_chunk()?;
        let table = behind.get(..ENTRY * usize::from(u16::from_be_bytes(*count)))?;
        Some(Attribute {
            code,
            table,
            from_code,
        })
    }

    /// The table's entries in its order.
    pub fn entries(&self) -> impl DoubleEndedIterator<Item = Entry> + 'a {
        let (entries, _) = self.table.as_chunks::<ENTRY>();
        entries.iter().map(|&[a, b, c, d, e, f, g, h]| Entry {
            start: u16::from_be_bytes([a, b]),
            end: u16::from_be_bytes([c, d]),
            handler: u16::from_be_bytes([e, f]),
            catch: u16::from_be_bytes([g, h]),
        })
    }
}
