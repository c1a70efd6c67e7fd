//! Bundles by seed: the same seed always gives the same bundle.

mod anatomy;
mod branching;
pub mod breaches;
pub mod contending;
pub mod damage;
pub mod edges;
mod faults;
mod fields;
pub mod flow;
pub(crate) mod interface;
pub mod nesting;
mod overlapping;
mod probes;
pub mod random;
pub mod recurring;
mod settle;
pub mod sharing;
pub mod sized;
mod tempt;
mod tempt_fields;
mod throwing;
pub mod typed;
pub mod unpaired;
mod unreached;
mod writer;

use crate::rng::Rng;
use reference::slips::Slip;

/// The families of generated bundles.
#[derive(Clone, Copy, Debug, PartialEq, Eq)]
pub enum Family {
    /// Random bytes of all lengths.
    Bytes,
    /// Right structure, random instructions and rows.
    Structured,
    /// The same with one thing broken.
    StructuredDamaged,
    /// Well-typed methods.
    Typed,
    /// Well-typed methods with one thing broken.
    TypedDamaged,
    /// Well-typed methods with one rule broken, at times in several ways.
    Faulty,
    /// One instruction between rows of its own making, mostly broken.
    Probe,
    /// Overlaps, odd offsets, limits at their edges.
    Edge,
    /// Well-typed methods whose records share bytes.
    Overlapping,
    /// Threads that want the same locks.
    Contending,
    /// Threads that find their locks in the fields of one object.
    Sharing,
    /// What only a slipped verifier accepts.
    Tempting,
}

impl Family {
    /// How many of every hundred bundles come from each family.
    const SHARES: [(Family, usize); 12] = [
        (Family::Bytes, 6),
        (Family::Structured, 6),
        (Family::StructuredDamaged, 6),
        (Family::Typed, 20),
        (Family::TypedDamaged, 15),
        (Family::Faulty, 8),
        (Family::Probe, 12),
        (Family::Edge, 7),
        (Family::Overlapping, 3),
        (Family::Contending, 1),
        (Family::Sharing, 1),
        (Family::Tempting, 15),
    ];

    fn choose(rng: &mut Rng) -> Family {
        let mut at = rng.below(100);
        for (family, share) in Family::SHARES {
            if at < share {
                return family;
            }
            at -= share;
        }
        Family::Typed
    }

    /// One bundle of this family.
    pub fn make(self, rng: &mut Rng) -> Vec<u8> {
        match self {
            Family::Bytes => random::bytes(rng),
            Family::Structured => random::structured(rng).lay_out(),
            Family::StructuredDamaged => {
                let draft = random::structured(rng);
                damage::damage(rng, draft.lay_out())
            }
            Family::Typed => typed::well_typed(rng),
            Family::TypedDamaged => {
                let bundle = typed::well_typed(rng);
                damage::damage(rng, bundle)
            }
            Family::Faulty => {
                let mut draft = typed::draft(rng, None);
                faults::break_some_rule(rng, &mut draft.methods);
                draft.lay_out()
            }
            Family::Probe => probes::probe(rng),
            Family::Edge => edges::edge(rng),
            Family::Overlapping => overlapping::overlapping(rng),
            Family::Contending => contending::contending(rng).lay_out(),
            Family::Sharing => sharing::sharing(rng).lay_out(),
            Family::Tempting => {
                let slip = rng.pick(&Slip::VERIFIER);
                typed::tempting(rng, slip)
            }
        }
    }
}

/// The bundle of this seed, and the family it comes from.
pub fn bundle(seed: u64) -> (Family, Vec<u8>) {
    let mut rng = Rng::new(seed);
    let family = Family::choose(&mut rng);
    (family, family.make(&mut rng))
}
