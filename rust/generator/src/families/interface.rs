//! What the methods of a bundle know of each other.

use super::random;
use crate::rng::Rng;
use reference::bundle::{Field, INT};
use reference::entries::Entry;
use reference::instructions::MAX_FIELDS;

/// More arguments than this are rare in other tests, and are counted.
pub const FEW_ARGUMENTS: usize = 3;

#[derive(Clone, Debug)]
pub struct Interface {
    /// Every class's argument descriptors, none for main.
    pub signatures: Vec<Vec<u8>>,
    /// Every class's field descriptors.
    pub fields: Vec<Vec<u8>>,
    /// The class of what is thrown.
    pub exception: u8,
}

impl Interface {
    pub fn any(rng: &mut Rng) -> Interface {
        let count = if rng.chance(1, 12) {
            8
        } else {
            rng.between(1, 4)
        };
        Interface::of(rng, count)
    }

    /// With so many classes.
    pub fn of(rng: &mut Rng, count: usize) -> Interface {
        let mut signatures = vec![vec![]];
        for _ in 1..count {
            let n = arguments(rng);
            signatures.push((0..n).map(|_| descriptor(rng, count)).collect());
        }
        let fields = (0..count).map(|_| fields(rng, count)).collect();
        Interface {
            signatures,
            fields,
            exception: rng.below(count) as u8,
        }
    }

    /// The same with fields of all that there may be: integers, the class
    /// itself, what is thrown, and another class.
    pub fn with_rich_fields(self) -> Interface {
        let count = self.signatures.len() as u8;
        let of = |class| vec![INT, class, self.exception, (class + 1) % count];
        let fields = (0..count).map(of).collect();
        Interface { fields, ..self }
    }

    pub fn descriptor(&self, field: Field) -> u8 {
        self.fields[usize::from(field.class)][usize::from(field.number)]
    }

    /// The fields of which this holds, each with its descriptor.
    pub fn fields(&self, ok: impl Fn(Field, u8) -> bool) -> Vec<Field> {
        let mut found = vec![];
        for (class, descriptors) in (0..).zip(&self.fields) {
            for (number, &descriptor) in (0..).zip(descriptors) {
                let field = Field { class, number };
                if ok(field, descriptor) {
                    found.push(field);
                }
            }
        }
        found
    }

    /// The most arguments that a class has.
    pub fn widest(&self) -> usize {
        self.signatures.iter().map(Vec::len).max().unwrap_or(0)
    }

    /// A stack limit: mostly small, at times with room to start any class.
    pub fn stack_limit(&self, rng: &mut Rng) -> usize {
        match self.widest() {
            widest if widest > FEW_ARGUMENTS && rng.chance(1, 2) => {
                (widest + rng.between(1, 3)).min(16)
            }
            _ => size(rng),
        }
    }
}

/// How many arguments: mostly few, at times up to as many as a class may have.
fn arguments(rng: &mut Rng) -> usize {
    match rng.below(24) {
        0 => rng.between(8, 16),
        1..=3 => rng.between(FEW_ARGUMENTS + 1, 7),
        _ => rng.pick(&[0, 1, 1, 2, 2, 3]),
    }
}

/// The descriptors of a class's fields: none, a few or all that it may have.
pub fn fields(rng: &mut Rng, classes: usize) -> Vec<u8> {
    let count = rng.pick(&[0, 0, 1, 2, 3, MAX_FIELDS]);
    (0..count).map(|_| descriptor(rng, classes)).collect()
}

fn descriptor(rng: &mut Rng, classes: usize) -> u8 {
    match rng.chance(1, 4) {
        true => INT,
        false => rng.below(classes) as u8,
    }
}

/// How many variables or stack places: mostly a few, at times none or all.
pub fn size(rng: &mut Rng) -> usize {
    match rng.below(20) {
        0 => 0,
        1 => 16,
        _ => rng.between(1, 6),
    }
}

/// The variables of row 1, which at times claim less of an argument than is
/// known. With a debt that is never paid the method can't end, and then it
/// needs a stack to throw from.
pub fn claimed(
    rng: &mut Rng,
    arguments: &[u8],
    variables: usize,
    stack_limit: usize,
) -> Vec<Entry> {
    let mut claimed = random::first_row(arguments, variables).variables;
    for entry in &mut claimed[..arguments.len()] {
        match (rng.below(60), *entry) {
            (0..=3, _) => *entry = Entry::Top,
            (5..=12, Entry::Ref { class, .. }) => *entry = Entry::Nullable { class },
            (4, Entry::Ref { class, .. }) if stack_limit > 0 => {
                *entry = Entry::reference(class, 0, -(rng.between(1, 3) as i16));
            }
            _ => {}
        }
    }
    claimed
}
