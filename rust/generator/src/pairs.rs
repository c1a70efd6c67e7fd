//! Bundles whose pairs are to be worked out: their pair bytes wiped, scrambled or
//! left as they are, and bytes beside them that look like pairs.

use crate::builder::{Draft, Layout};
use crate::families::{self, unpaired};
use crate::rng::Rng;
use reference::bundle::{Addr, Bundle, RawRow, DIRECTORY_ENTRY};
use reference::entries::{kind, Entry, Raw};

/// A bundle, and as it was before its pair bytes were changed.
#[derive(Clone, Debug)]
pub struct Unpaired {
    pub given: Vec<u8>,
    pub bundle: Vec<u8>,
}

/// What is done with the pair bytes.
#[derive(Clone, Copy)]
enum Change {
    Left,
    Wiped,
    Zero,
    Highest,
    Scrambled,
}

/// By seed: methods whose kinds fit, and bundles of every family.
pub fn unpaired(seed: u64) -> Unpaired {
    let mut rng = Rng::new(seed ^ 0x9A12_0000_0000_0000);
    let given = match seed % 8 {
        0 | 1 => unpaired::unpaired(&mut rng).lay_out(),
        2 => laid_out(&mut rng),
        3 => unpaired::tiny(&mut rng).lay_out(),
        _ => families::bundle(seed).1,
    };
    let mut bundle = given.clone();
    let change = rng.pick(&[
        Change::Left,
        Change::Wiped,
        Change::Wiped,
        Change::Zero,
        Change::Highest,
        Change::Scrambled,
        Change::Scrambled,
    ]);
    for at in places(&given, is_reference) {
        let pair: [u8; 2] = match change {
            Change::Left => continue,
            Change::Wiped => [0, 0],
            Change::Zero => [0, 64],
            Change::Highest => [63, 127],
            Change::Scrambled => [rng.byte(), rng.byte()],
        };
        bundle[at + 2..at + 4].copy_from_slice(&pair);
    }
    if rng.chance(1, 16) {
        beside(&mut rng, &mut bundle);
    }
    Unpaired { given, bundle }
}

/// Records that share bytes, that touch and that don't, and a directory before
/// them or over them.
fn laid_out(rng: &mut Rng) -> Vec<u8> {
    let Draft { methods, exception } = unpaired::unpaired(rng);
    let mut layout = Layout::throwing(exception);
    let first = rng.chance(1, 4);
    if first {
        let room = DIRECTORY_ENTRY * (methods.len() + rng.pick(&[0, 0, 1]));
        layout.pad(&vec![0; room - rng.below(2)]);
    }
    for method in &methods {
        let offset = match rng.below(6) {
            0 => {
                layout.place_over(method);
                continue;
            }
            1 => {
                let bytes = rng.bytes(1);
                layout.pad(&bytes);
                layout.place(method)
            }
            _ => layout.place(method),
        };
        // A class that has the same record, at times one byte further on.
        if rng.chance(1, 6) {
            layout.enter(method, offset + usize::from(rng.chance(1, 4)));
        }
    }
    match (first, rng.chance(1, 3)) {
        (true, _) => layout.finish_with_directory_at(0),
        (false, true) => layout.finish_over(),
        (false, false) => layout.finish(),
    }
}

/// A byte that looks like one of a pair and is none: of kind 4, or of an entry
/// that is not in use.
fn beside(rng: &mut Rng, bundle: &mut [u8]) {
    let which = rng.pick(&[is_nullable, is_unused]);
    let places = places(bundle, which);
    if !places.is_empty() {
        let at = rng.pick(&places) + rng.between(2, 3);
        bundle[at] = rng.pick(&[1, 64]);
    }
}

fn is_reference(used: bool, raw: Raw) -> bool {
    used && raw[0] == kind::REFERENCE
}

fn is_nullable(used: bool, raw: Raw) -> bool {
    used && raw[0] == kind::NULLABLE
}

fn is_unused(used: bool, _: Raw) -> bool {
    !used
}

/// Where entries of this kind stand in a bundle that can be opened; `which` is
/// told whether they are in use.
fn places(bundle: &[u8], which: fn(bool, Raw) -> bool) -> Vec<usize> {
    let Ok(opened) = Bundle::open(bundle) else {
        return vec![];
    };
    let mut places = vec![];
    for (_, class) in opened.classes() {
        for (address, row) in (1..).zip(class.raw_rows()) {
            let RawRow {
                variables,
                depth,
                stack,
            } = row;
            let used = variables.len() + depth;
            for (place, &raw) in variables.iter().chain(stack).enumerate() {
                if which(place < used, raw) {
                    places.push(class.entry_offset(Addr(address), place));
                }
            }
        }
    }
    places
}

/// Where the references in use of a bundle stand, by which its pairs are told.
pub fn references(bundle: &[u8]) -> Vec<usize> {
    places(bundle, is_reference)
}

/// The pair of a reference that stands there.
pub fn pair(bundle: &[u8], at: usize) -> Option<(i16, i16)> {
    match Entry::read([bundle[at], bundle[at + 1], bundle[at + 2], bundle[at + 3]]) {
        Entry::Ref { pair, .. } => Some((pair.dip, pair.end)),
        _ => None,
    }
}
