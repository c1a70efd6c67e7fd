//! Code attributes by seed, with a list of classes and the room for what is
//! taken: the same seed always gives the same.

mod damage;
pub mod marks;
mod pieces;
mod tables;

use crate::rng::Rng;
use pieces::Pieces;
use reference::take::instructions;
use tables::Entry;

/// What is given to be taken.
#[derive(Clone, Debug, PartialEq, Eq)]
pub struct Taking {
    pub attribute: Vec<u8>,
    pub classes: Vec<u16>,
    /// How many bytes are lent.
    pub room: usize,
}

/// The families of generated attributes.
#[derive(Clone, Copy, Debug, PartialEq, Eq)]
pub enum Family {
    /// Random bytes, behind a head that mostly is one.
    Bytes,
    /// Instructions that are taken, with branches and handlers in their place.
    Written,
    /// The same with some that go astray.
    Astray,
    /// Some 256 instructions.
    Many,
    /// Tens of thousands of bytes, nearly all of them nops.
    Huge,
    /// With an instruction that is not taken, or not as it stands.
    Foreign,
    /// Cut short, or with another length.
    Cut,
    /// Some bytes changed.
    Damaged,
}

impl Family {
    fn choose(rng: &mut Rng) -> Family {
        match rng.below(40) {
            0 => Family::Bytes,
            1..=12 => Family::Written,
            13..=20 => Family::Astray,
            21..=26 => Family::Many,
            27..=33 => Family::Foreign,
            34..=36 => Family::Cut,
            37 if rng.chance(1, 8) => Family::Huge,
            _ => Family::Damaged,
        }
    }

    fn attribute(self, rng: &mut Rng, classes: &[u16]) -> Vec<u8> {
        match self {
            Family::Bytes => damage::bytes(rng),
            Family::Written | Family::Many | Family::Huge => {
                let pieces = self.pieces(rng, classes);
                let table = tables::table(rng, &pieces);
                written(rng, &pieces.code(), &table)
            }
            Family::Astray => {
                let mut pieces = self.pieces(rng, classes);
                let mut table = tables::table(rng, &pieces);
                tables::lead_astray(rng, &mut pieces, &mut table);
                written(rng, &pieces.code(), &table)
            }
            Family::Foreign => {
                let mut pieces = self.pieces(rng, classes);
                damage::add_foreign(rng, &mut pieces, classes);
                let mut table = tables::table(rng, &pieces);
                if rng.chance(1, 4) {
                    tables::lead_astray(rng, &mut pieces, &mut table);
                }
                written(rng, &pieces.code(), &table)
            }
            Family::Cut => {
                let whole = Family::Written.attribute(rng, classes);
                damage::cut(rng, whole)
            }
            Family::Damaged => {
                let whole = Family::Written.attribute(rng, classes);
                damage::damage(rng, whole)
            }
        }
    }

    fn pieces(self, rng: &mut Rng, classes: &[u16]) -> Pieces {
        match self {
            Family::Many => Pieces::many(rng, classes),
            Family::Huge => Pieces::huge(rng, classes),
            Family::Astray | Family::Foreign if rng.chance(1, 8) => Pieces::many(rng, classes),
            _ => Pieces::few(rng, classes),
        }
    }
}

/// The attribute of this seed with all that goes with it, and its family.
pub fn taking(seed: u64) -> (Family, Taking) {
    let mut rng = Rng::new(seed ^ 0x7A4E_0000_0000_0000);
    let family = Family::choose(&mut rng);
    let classes = classes(&mut rng);
    let attribute = family.attribute(&mut rng, &classes);
    let room = room(&mut rng, &attribute, &classes);
    let taking = Taking {
        attribute,
        classes,
        room,
    };
    (family, taking)
}

/// Mostly some places, at times none, or more than are read; an index may stand
/// there twice, or differ from another in one byte.
fn classes(rng: &mut Rng) -> Vec<u16> {
    let count = match rng.below(8) {
        0 => 0,
        1 | 2 => rng.between(8, 11),
        _ => rng.between(1, 8),
    };
    let base = rng.number() as u16;
    let class = |_| match rng.below(6) {
        0 => rng.number() as u16,
        1 => base ^ 0x0100,
        _ => base.wrapping_add(rng.below(8) as u16),
    };
    (0..count).map(class).collect()
}

/// Mostly enough, or nearly so.
fn room(rng: &mut Rng, attribute: &[u8], classes: &[u16]) -> usize {
    let read = instructions(attribute, classes);
    let needed: u32 = read.iter().map(|i| i.does.yields()).sum();
    let needed = 4 * needed as usize;
    match rng.below(8) {
        0 => rng.below(needed + 1),
        1 => needed.saturating_sub(rng.below(14)),
        2 => needed + rng.below(9),
        3 => rng.below(1_100),
        4 => needed,
        _ => 1_024 + rng.pick(&[0, 0, 0, 1, 4, 100]),
    }
}

/// A Code attribute with what isn't read at random, and mostly something
/// behind its table.
fn written(rng: &mut Rng, code: &[u8], table: &[Entry]) -> Vec<u8> {
    let mut bytes = rng.bytes(10);
    bytes.extend((code.len() as u32).to_be_bytes());
    bytes.extend(code);
    bytes.extend((table.len() as u16).to_be_bytes());
    bytes.extend(table.iter().flat_map(|entry| entry.bytes()));
    let behind = rng.pick(&[0, 2, 2, 2, 3, 20]);
    bytes.extend(rng.bytes(behind));
    bytes
}
