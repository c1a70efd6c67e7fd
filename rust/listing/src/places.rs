//! Where the parts of a bundle stand: the trailer, a class's eight bytes of
//! the directory, and what they say of its record.

use crate::bytes::{byte, word};

/// The bytes of the trailer.
pub const TRAILER: usize = 8;
/// The bytes that a class has in the directory.
pub const HEAD: usize = 8;
/// The last two bytes of a bundle.
pub const MARK: [u8; 2] = [0x4C, 0x4B];

/// The trailer of a bundle of eight bytes or more.
#[derive(Clone, Copy, Debug, PartialEq, Eq)]
pub struct Trailer {
    /// Where it begins.
    pub at: usize,
    pub directory: usize,
    pub classes: u8,
    /// X, the class whose objects are thrown.
    pub exception: u8,
    pub length: usize,
    pub mark: [u8; 2],
}

impl Trailer {
    pub fn read(bytes: &[u8]) -> Trailer {
        let at = bytes.len().saturating_sub(TRAILER);
        Trailer {
            at,
            directory: usize::from(word(bytes, at)),
            classes: byte(bytes, at + 2),
            exception: byte(bytes, at + 3),
            length: usize::from(word(bytes, at + 4)),
            mark: [byte(bytes, at + 6), byte(bytes, at + 7)],
        }
    }

    /// Where the eight bytes of this class begin.
    pub fn head(&self, class: u8) -> usize {
        self.directory + HEAD * usize::from(class)
    }

    /// Where the directory ends.
    pub fn directory_end(&self) -> usize {
        self.head(self.classes)
    }
}

/// What the directory says of one class.
#[derive(Clone, Copy, Debug, PartialEq, Eq)]
pub struct Head {
    /// Where its eight bytes begin.
    pub at: usize,
    pub offset: usize,
    /// n
    pub arguments: usize,
    /// V
    pub variables: usize,
    /// K
    pub stack: usize,
    pub fields: usize,
    /// k
    pub code: u16,
}

impl Head {
    pub fn read(bytes: &[u8], at: usize) -> Head {
        Head {
            at,
            offset: usize::from(word(bytes, at)),
            arguments: usize::from(byte(bytes, at + 2)),
            variables: usize::from(byte(bytes, at + 3)),
            stack: usize::from(byte(bytes, at + 4)),
            fields: usize::from(byte(bytes, at + 5)),
            code: word(bytes, at + 6),
        }
    }

    /// The bytes of one row.
    pub fn width(&self) -> usize {
        4 * self.variables + 1 + 4 * self.stack
    }

    /// Where the record ends.
    pub fn end(&self) -> usize {
        self.row(1) + usize::from(self.code) * self.width()
    }

    /// Where the descriptor of an argument stands.
    pub fn argument(&self, argument: usize) -> usize {
        self.offset + argument
    }

    /// Where the descriptor of a field stands.
    pub fn field(&self, field: usize) -> usize {
        self.argument(self.arguments) + field
    }

    /// Where the instruction of an address, counted from 1, stands.
    pub fn instruction(&self, address: u16) -> usize {
        self.field(self.fields) + 4 * (usize::from(address) - 1)
    }

    /// Where the row of an address begins, which is where its variables do.
    pub fn row(&self, address: u16) -> usize {
        let rows = self.field(self.fields) + 4 * usize::from(self.code);
        rows + (usize::from(address) - 1) * self.width()
    }

    pub fn variable(&self, address: u16, variable: usize) -> usize {
        self.row(address) + 4 * variable
    }

    pub fn depth(&self, address: u16) -> usize {
        self.variable(address, self.variables)
    }

    /// Where a stack entry stands, counted from the top.
    pub fn stack_entry(&self, address: u16, entry: usize) -> usize {
        self.depth(address) + 1 + 4 * entry
    }
}
