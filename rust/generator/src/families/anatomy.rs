//! Where the parts of a bundle in its plain layout lie.

use super::random::Names;
use crate::rng::Rng;
use reference::bundle::{DIRECTORY_ENTRY, TRAILER};

/// Where the parts of one class's record lie.
#[derive(Clone, Debug)]
pub struct Record {
    pub entry: usize,
    pub offset: usize,
    pub arguments: usize,
    pub variables: usize,
    pub stack: usize,
    pub fields: usize,
    pub code: usize,
}

impl Record {
    /// Reads a directory entry of a good bundle.
    pub fn read(b: &[u8], entry: usize) -> Record {
        let two = |at: usize| usize::from(b[at]) * 256 + usize::from(b[at + 1]);
        Record {
            entry,
            offset: two(entry),
            arguments: usize::from(b[entry + 2]),
            variables: usize::from(b[entry + 3]),
            stack: usize::from(b[entry + 4]),
            fields: usize::from(b[entry + 5]),
            code: two(entry + 6),
        }
    }

    /// How many descriptors the record begins with.
    pub fn descriptors(&self) -> usize {
        self.arguments + self.fields
    }

    pub fn instruction(&self, index: usize) -> usize {
        self.offset + self.descriptors() + 4 * index
    }

    pub fn row(&self, index: usize) -> usize {
        let length = 4 * self.variables + 1 + 4 * self.stack;
        self.instruction(self.code) + index * length
    }

    /// Where the depth of a row stands.
    pub fn depth(&self, index: usize) -> usize {
        self.row(index) + 4 * self.variables
    }

    /// Where the record ends.
    pub fn end(&self) -> usize {
        self.row(self.code)
    }

    /// Where some entry of a row stands, if the record has any.
    pub fn some_entry(&self, rng: &mut Rng, row: usize) -> Option<usize> {
        let entries = self.variables + self.stack;
        if entries == 0 {
            return None;
        }
        let index = rng.below(entries);
        let past_depth = usize::from(index >= self.variables);
        Some(self.row(row) + 4 * index + past_depth)
    }
}

/// How many classes the trailer names.
pub fn classes(b: &[u8]) -> usize {
    usize::from(b[b.len() - TRAILER + 2])
}

/// What its instructions may name.
pub fn names(b: &[u8]) -> Names {
    Names::new(records(b).iter().map(|record| record.fields))
}

/// Every class's, in order.
pub fn records(b: &[u8]) -> Vec<Record> {
    let at = b.len() - TRAILER - DIRECTORY_ENTRY * classes(b);
    (0..classes(b))
        .map(|class| Record::read(b, at + DIRECTORY_ENTRY * class))
        .collect()
}
