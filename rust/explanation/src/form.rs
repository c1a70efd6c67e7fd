//! Verdict 8: a row that is not well formed.

use crate::finding::{explained, Finding};
use crate::words::{sentence, there, Place};
use crate::Explanation;
use listing::{Entry, Method, Program, HIGHEST_DIP, HIGHEST_END_BYTE};

pub fn explain(program: &Program, class: u8, address: u16) -> Explanation {
    let method = program.method(class);
    let findings = match depth(&method, address) {
        Some(finding) => vec![finding],
        None => entries(&method, address, program.trailer.classes),
    };
    let rule = format!(
        "Row {address} of class {class} must be well formed: its depth at most K, each variable \
         and each stack entry in use Int, Top or a reference, which may be null or not, and \
         the others zeros."
    );
    explained(program.bundle(), &rule, findings)
}

/// A depth above K makes the row malformed, whatever its entries are.
fn depth(method: &Method, address: u16) -> Option<Finding> {
    let (depth, limit) = (method.row(address).depth, method.head.stack);
    let text = format!("The depth is {depth}, and the limit of the stack is {limit}.");
    (usize::from(depth) > limit).then(|| Finding::new(method.head.depth(address), 1, text))
}

/// The entries that may not stand where they do.
fn entries(method: &Method, address: u16, classes: u8) -> Vec<Finding> {
    let row = method.row(address);
    let in_use = row.stack().len();
    let variables = row.variables.iter().enumerate().map(|(v, &entry)| {
        let at = method.head.variable(address, v);
        (Place::Variable(v), at, entry, true)
    });
    let stack = row.places.iter().enumerate().map(|(i, &entry)| {
        let at = method.head.stack_entry(address, i);
        (Place::Stack(i), at, entry, i < in_use)
    });
    variables
        .chain(stack)
        .filter_map(|(place, at, entry, used)| {
            let text = wrong(entry, used, classes)?;
            let text = format!("{}: {text}.", sentence(&place.to_string()));
            Some(Finding::new(at, 4, text))
        })
        .collect()
}

/// Why an entry may not stand in a place that is in use or not.
fn wrong(entry: Entry, used: bool, classes: u8) -> Option<String> {
    match entry {
        Entry::Int | Entry::Top | Entry::Ref { .. } | Entry::Nullable { .. } if used => None,
        Entry::Blank if !used => None,
        Entry::Blank => Some("a place in use has four zeros".to_string()),
        _ if !used => Some("a place that is not in use has other bytes than zeros".to_string()),
        Entry::Malformed(bytes) => Some(malformed(bytes, classes)),
        Entry::Int | Entry::Top | Entry::Ref { .. } | Entry::Nullable { .. } => None,
    }
}

fn malformed(bytes: [u8; 4], classes: u8) -> String {
    match bytes {
        [1 | 2, ..] => "Int and Top have zeros behind their first byte".to_string(),
        [3 | 4, class, _, _] if class >= classes => format!(
            "it refers to class {class}, and {}, counted from 0",
            there(classes, "class")
        ),
        [3, _, dip, _] if dip > HIGHEST_DIP => {
            format!("its dip is {dip}, and at most {HIGHEST_DIP} is allowed")
        }
        [3, _, _, end] => format!(
            "the byte of its end is {end}, and 1 to {HIGHEST_END_BYTE} are allowed, \
             for ends of -63 to 63"
        ),
        [4, ..] => "a reference that may be null has zeros behind its class".to_string(),
        [kind, ..] => format!("no entry begins with {kind}"),
    }
}
