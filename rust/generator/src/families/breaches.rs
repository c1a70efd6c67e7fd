//! Two breaches in a bundle that is good otherwise, so that the order of
//! verdicts decides which is told.
//!
//! What is changed for one breach has no part in the other: rules are broken
//! by other instructions, never by other rows. So both together draw the
//! verdict of the earlier one, in the law's order.

use super::anatomy::{classes, names, records, Record};
use super::interface::Interface;
use super::{random, typed};
use crate::rng::Rng;
use reference::bundle::{Verdict, MAX_LENGTH, TRAILER};
use reference::verify::verify;

/// The verdicts that refuse.
pub const REFUSALS: std::ops::RangeInclusive<u8> = 1..=10;

/// How often a breach is tried before another bundle is.
const TRIES: usize = 20;

#[derive(Clone, Debug)]
pub struct TwoBreaches {
    pub bundle: Vec<u8>,
    /// What each draws alone.
    pub alone: [Verdict; 2],
}

impl TwoBreaches {
    pub fn any(rng: &mut Rng) -> TwoBreaches {
        loop {
            let wanted = [(); 2].map(|()| rng.between(1, 10) as u8);
            let good = good(rng);
            if let Some(found) = TwoBreaches::of(rng, &good, wanted) {
                return found;
            }
        }
    }

    /// Two breaches of these verdicts at places of their own, if they come up.
    fn of(rng: &mut Rng, good: &[u8], wanted: [u8; 2]) -> Option<TwoBreaches> {
        let (one, first) = breach(rng, good, wanted[0])?;
        let (two, second) = breach(rng, good, wanted[1])?;
        if first == second || one.touches(&two) {
            return None;
        }
        let mut bundle = good.to_vec();
        // A bundle made longer has its trailer elsewhere, so that comes last.
        let (earlier, later) = match one {
            Edit::Lengthen => (two, one),
            Edit::Put { .. } => (one, two),
        };
        earlier.apply(&mut bundle);
        later.apply(&mut bundle);
        Some(TwoBreaches {
            bundle,
            alone: [first, second],
        })
    }
}

/// A bundle in its plain layout with a breach of this verdict, if one comes up,
/// and what it draws without levels.
pub fn one_breach(rng: &mut Rng, good: &[u8], wanted: u8) -> Option<(Vec<u8>, Verdict)> {
    let (edit, verdict) = breach(rng, good, wanted)?;
    let mut bundle = good.to_vec();
    edit.apply(&mut bundle);
    Some((bundle, verdict))
}

/// An accepted bundle of several classes in its plain layout.
fn good(rng: &mut Rng) -> Vec<u8> {
    loop {
        let count = rng.between(3, 4);
        let interface = Interface::of(rng, count);
        let bundle = typed::draft_of(rng, interface, None).lay_out();
        if verify(&bundle).number == 0 {
            return bundle;
        }
    }
}

/// A change to a bundle in its plain layout.
#[derive(Clone, Debug)]
enum Edit {
    /// These bytes in the place of others.
    Put { at: usize, bytes: Vec<u8> },
    /// More bytes than a bundle may have, in front of the trailer.
    Lengthen,
}

impl Edit {
    fn put(at: usize, bytes: &[u8]) -> Edit {
        Edit::Put {
            at,
            bytes: bytes.to_vec(),
        }
    }

    fn apply(&self, bundle: &mut Vec<u8>) {
        match self {
            Edit::Put { at, bytes } => bundle[*at..*at + bytes.len()].copy_from_slice(bytes),
            Edit::Lengthen => lengthen(bundle),
        }
    }

    fn touches(&self, other: &Edit) -> bool {
        match (self, other) {
            (Edit::Put { at, bytes }, Edit::Put { at: b, bytes: c }) => {
                *at < b + c.len() && *b < at + bytes.len()
            }
            _ => false,
        }
    }
}

/// The trailer tells as much of the new length as two bytes can.
fn lengthen(bundle: &mut Vec<u8>) {
    let added = MAX_LENGTH + 1 - bundle.len() + usize::from(bundle[0]);
    let trailer = bundle.len() - TRAILER;
    let told = u16::from_be_bytes([bundle[trailer + 4], bundle[trailer + 5]]);
    let told = told.wrapping_add(added as u16).to_be_bytes();
    bundle[trailer + 4..trailer + 6].copy_from_slice(&told);
    bundle.splice(trailer..trailer, vec![0; added]);
}

/// A change that draws this verdict, and where.
fn breach(rng: &mut Rng, good: &[u8], wanted: u8) -> Option<(Edit, Verdict)> {
    let all = records(good);
    (0..TRIES).find_map(|_| {
        let record = &all[rng.below(all.len())];
        let edit = edit(rng, good, record, wanted)?;
        let mut broken = good.to_vec();
        edit.apply(&mut broken);
        let verdict = verify(&broken);
        (verdict.number == wanted).then_some((edit, verdict))
    })
}

/// A change that may draw this verdict, at this record if it is a class's.
fn edit(rng: &mut Rng, good: &[u8], record: &Record, wanted: u8) -> Option<Edit> {
    let any = rng.byte();
    Some(match wanted {
        1 => Edit::Lengthen,
        2 => Edit::put(good.len() - rng.between(1, 4), &[any]),
        3 => Edit::put(good.len() - TRAILER + rng.below(4), &[any]),
        4 => Edit::put(record.entry + rng.between(2, 7), &[any]),
        5 => {
            let last = good.len() - TRAILER - (record.end() - record.offset);
            let offset = rng.pick(&[last + 1, MAX_LENGTH]) as u16;
            Edit::put(record.entry, &offset.to_be_bytes())
        }
        6 if record.descriptors() > 0 => {
            Edit::put(record.offset + rng.below(record.descriptors()), &[any])
        }
        7 => {
            let at = record.instruction(rng.below(record.code)) + rng.below(4);
            Edit::put(at, &[any])
        }
        8 => malformed(rng, record)?,
        9 => other_instruction(rng, good, record),
        10 => {
            let entry = random::entry(rng, classes(good)).bytes();
            Edit::put(record.some_entry(rng, 0)?, &entry)
        }
        _ => return None,
    })
}

fn malformed(rng: &mut Rng, record: &Record) -> Option<Edit> {
    let row = rng.below(record.code);
    let at = match rng.chance(1, 4) {
        true => record.depth(row),
        false => record.some_entry(rng, row)? + rng.below(4),
    };
    Some(Edit::put(at, &[rng.byte()]))
}

fn other_instruction(rng: &mut Rng, good: &[u8], record: &Record) -> Edit {
    let index = rng.below(record.code);
    let names = names(good);
    let instr = random::instruction(rng, record.variables, &names, index + 1, record.code);
    Edit::put(record.instruction(index), &instr.bytes())
}
