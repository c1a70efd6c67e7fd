//! Changes of one slice or one number of what is handed over.

use super::OwnedParts;
use crate::rng::Rng;
use reference::gate::KIND;

/// What is changed, and how.
type Change = (&'static str, fn(&mut Rng, &mut OwnedParts));

pub const CHANGES: [Change; 30] = [
    ("directory short", |_, parts| shorten(&mut parts.directory)),
    ("directory long", |rng, parts| {
        lengthen(rng, &mut parts.directory)
    }),
    ("descriptors short", |_, parts| {
        shorten(&mut parts.descriptors)
    }),
    ("descriptors long", |rng, parts| {
        lengthen(rng, &mut parts.descriptors)
    }),
    ("instructions short", |_, parts| {
        shorten(&mut parts.instructions)
    }),
    ("instructions long", |rng, parts| {
        lengthen(rng, &mut parts.instructions)
    }),
    ("kinds short", |_, parts| shorten(&mut parts.kinds)),
    ("kinds long", |rng, parts| lengthen(rng, &mut parts.kinds)),
    ("depths short", |_, parts| shorten(&mut parts.depths)),
    ("depths long", |rng, parts| lengthen(rng, &mut parts.depths)),
    ("a byte moved to another slice", |rng, parts| {
        let byte = parts.depths.pop().unwrap_or(0);
        let others = [
            &mut parts.descriptors,
            &mut parts.instructions,
            &mut parts.kinds,
        ];
        others[rng.below(3)].push(byte);
    }),
    ("count 0", |_, parts| parts.classes = 0),
    ("count 9", |_, parts| parts.classes = 9),
    ("count 4,294,967,295", |_, parts| parts.classes = u32::MAX),
    ("a count more", |_, parts| add(&mut parts.classes, 1)),
    ("a count less", |_, parts| add(&mut parts.classes, u32::MAX)),
    ("a count of 256 more", |_, parts| {
        add(&mut parts.classes, 256)
    }),
    ("a count of 65,536 more", |_, parts| {
        add(&mut parts.classes, 65_536)
    }),
    ("another exception class", |rng, parts| {
        parts.exception = rng.below(8) as u32
    }),
    ("the exception class behind the last", |_, parts| {
        parts.exception = parts.classes
    }),
    ("exception class 255", |_, parts| parts.exception = 255),
    ("an exception class of 256 more", |_, parts| {
        add(&mut parts.exception, 256)
    }),
    ("an exception class of 65,536 more", |_, parts| {
        add(&mut parts.exception, 65_536)
    }),
    ("exception class 4,294,967,295", |_, parts| {
        parts.exception = u32::MAX
    }),
    ("a directory number", |rng, parts| {
        another(rng, &mut parts.directory)
    }),
    ("a descriptor", |rng, parts| {
        another(rng, &mut parts.descriptors)
    }),
    ("a byte of an instruction", |rng, parts| {
        another(rng, &mut parts.instructions)
    }),
    ("a kind", |rng, parts| {
        if !parts.kinds.is_empty() {
            let at = rng.below(parts.kinds.len().div_ceil(KIND));
            parts.kinds[KIND * at] = rng.below(6) as u8;
        }
    }),
    ("a kind's class", |rng, parts| {
        let entries = parts.kinds.len() / KIND;
        if entries > 0 {
            let at = rng.below(entries);
            parts.kinds[KIND * at + 1] = rng.below(4) as u8;
        }
    }),
    ("a depth", |rng, parts| another(rng, &mut parts.depths)),
];

fn shorten(slice: &mut Vec<u8>) {
    slice.truncate(slice.len().saturating_sub(1));
}

fn lengthen(rng: &mut Rng, slice: &mut Vec<u8>) {
    slice.push(rng.byte());
}

fn add(number: &mut u32, more: u32) {
    *number = number.wrapping_add(more);
}

/// Another byte somewhere, mostly one that is near.
fn another(rng: &mut Rng, slice: &mut [u8]) {
    if slice.is_empty() {
        return;
    }
    let byte = &mut slice[rng.below(slice.len())];
    *byte = match rng.below(4) {
        0 => rng.byte(),
        1 => byte.wrapping_sub(1),
        _ => byte.wrapping_add(1),
    };
}
