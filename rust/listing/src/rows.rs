//! A row: what is claimed of a thread that stands at an address.

use crate::entries::Entry;
use std::fmt::{self, Display, Formatter};

/// The entries of a row; the stack is top first.
#[derive(Clone, Debug, PartialEq, Eq)]
pub struct Row {
    pub variables: Vec<Entry>,
    /// The depth as it stands in the bundle, which may be above K.
    pub depth: u8,
    /// All K entries, those in use and the others.
    pub places: Vec<Entry>,
}

impl Row {
    /// The entries in use.
    pub fn stack(&self) -> &[Entry] {
        &self.places[..self.places.len().min(usize::from(self.depth))]
    }

    /// The entries that are not in use, and should be blank.
    pub fn unused(&self) -> &[Entry] {
        &self.places[self.stack().len()..]
    }

    pub(crate) fn variables_text(&self) -> String {
        spaced(&self.variables)
    }

    /// The stack, and what makes the row malformed beside its entries.
    pub(crate) fn stack_text(&self) -> String {
        let mut text = spaced(self.stack());
        if usize::from(self.depth) > self.places.len() {
            text += &format!(" (depth {}, limit {})", self.depth, self.places.len());
        }
        if self.unused().iter().any(|&entry| entry != Entry::Blank) {
            text += &format!(" (unused: {})", spaced(self.unused()));
        }
        text
    }
}

fn spaced(entries: &[Entry]) -> String {
    let words: Vec<String> = entries.iter().map(Entry::to_string).collect();
    words.join(" ")
}

/// `C0(1,-1) Top | Int`: the variables, then the stack from its top.
impl Display for Row {
    fn fmt(&self, to: &mut Formatter) -> fmt::Result {
        let text = format!("{} | {}", self.variables_text(), self.stack_text());
        to.write_str(text.trim())
    }
}
