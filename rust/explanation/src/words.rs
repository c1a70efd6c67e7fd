//! Numbers and places in words.

use listing::Entry;
use std::fmt::{self, Display, Formatter};

const WIDTH: usize = 80;

/// `1 release`, `2 releases`.
pub fn some(count: impl Into<i64>, thing: &str) -> String {
    match count.into() {
        1 => format!("1 {thing}"),
        count => format!("{count} {}", plural(thing)),
    }
}

/// `there is 1 class`, `there are 2 classes`.
pub fn there(count: impl Into<i64>, thing: &str) -> String {
    let count = count.into();
    let are = if count == 1 { "is" } else { "are" };
    format!("there {are} {}", some(count, thing))
}

fn plural(thing: &str) -> String {
    match thing.strip_suffix('y') {
        Some(stem) => format!("{stem}ies"),
        None if thing.ends_with('s') => format!("{thing}es"),
        None => format!("{thing}s"),
    }
}

/// The text with a great letter in front.
pub fn sentence(text: &str) -> String {
    let mut letters = text.chars();
    letters
        .next()
        .map(|first| first.to_uppercase().chain(letters).collect())
        .unwrap_or_default()
}

/// The text in lines of at most 80 letters, broken between words.
pub fn wrapped(text: &str) -> String {
    let mut lines: Vec<String> = vec![];
    for word in text.split(' ') {
        match lines.last_mut() {
            Some(line) if line.len() + 1 + word.len() <= WIDTH => {
                line.push(' ');
                line.push_str(word);
            }
            _ => lines.push(word.to_string()),
        }
    }
    lines.join("\n")
}

/// A place of a row.
#[derive(Clone, Copy, Debug, PartialEq, Eq)]
pub enum Place {
    Variable(usize),
    /// Counted from the top.
    Stack(usize),
}

impl From<reference::order::Place> for Place {
    fn from(place: reference::order::Place) -> Place {
        match place {
            reference::order::Place::Variable(v) => Place::Variable(v),
            reference::order::Place::Stack(i) => Place::Stack(i),
        }
    }
}

impl Display for Place {
    fn fmt(&self, to: &mut Formatter) -> fmt::Result {
        match self {
            Place::Variable(v) => write!(to, "variable {v}"),
            Place::Stack(0) => write!(to, "the top"),
            Place::Stack(i) => write!(to, "stack entry {i}"),
        }
    }
}

/// An entry's kind, for those that don't fit each other.
pub fn kind(entry: Entry) -> String {
    match entry {
        Entry::Int => "an integer".to_string(),
        Entry::Ref { class, .. } => format!("a reference of class {class}"),
        Entry::Nullable { class } => format!("a reference of class {class} that may be null"),
        Entry::Top => "Top, of which nothing is known,".to_string(),
        Entry::Blank | Entry::Malformed(_) => "no type at all".to_string(),
    }
}
