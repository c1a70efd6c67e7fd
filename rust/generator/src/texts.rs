//! Texts by seed, of usages and of what is none: the same seed always gives
//! the same text.

mod damage;
mod limits;
pub mod marks;
mod trees;

use crate::rng::Rng;

/// The families of generated texts.
#[derive(Clone, Copy, Debug, PartialEq, Eq)]
pub enum Family {
    /// Random bytes.
    Bytes,
    /// Random signs of the language.
    Signs,
    /// A usage, with brackets that it does not need.
    Written,
    /// A reliable usage.
    Reliable,
    /// A usage of some 256 bytes.
    Long,
    /// A usage with some 16 brackets around it, or many more.
    Deep,
    /// A usage whose dip or end is at an edge of its range.
    Wide,
    /// One of the others that are usages, damaged.
    Damaged,
}

impl Family {
    /// Those that give usages, two of them twice as often.
    const USAGES: [Family; 7] = [
        Family::Written,
        Family::Reliable,
        Family::Long,
        Family::Deep,
        Family::Deep,
        Family::Wide,
        Family::Wide,
    ];

    fn choose(rng: &mut Rng) -> Family {
        match rng.below(20) {
            0 => Family::Bytes,
            1 => Family::Signs,
            2..=6 => Family::Damaged,
            _ => rng.pick(&Family::USAGES),
        }
    }

    /// One text of this family.
    pub fn make(self, rng: &mut Rng) -> Vec<u8> {
        match self {
            Family::Bytes => {
                let length = rng.below(300);
                rng.bytes(length)
            }
            Family::Signs => damage::signs(rng),
            Family::Written => trees::written(rng).into_bytes(),
            Family::Reliable => trees::reliable(rng).into_bytes(),
            Family::Long => limits::long(rng).into_bytes(),
            Family::Deep => limits::deep(rng).into_bytes(),
            Family::Wide => limits::wide(rng).into_bytes(),
            Family::Damaged => {
                let family = rng.pick(&Family::USAGES);
                let text = family.make(rng);
                damage::damage(rng, text)
            }
        }
    }
}

/// The text of this seed, and the family it comes from.
pub fn text(seed: u64) -> (Family, Vec<u8>) {
    let mut rng = Rng::new(seed);
    let family = Family::choose(&mut rng);
    (family, family.make(&mut rng))
}
