//! A bundle apart from its pairs: rows that are well formed whatever their pair
//! bytes are (8), and records that share no byte (23).

use crate::bundle::{Bundle, RawRow, Verdict, DIRECTORY_ENTRY, TRAILER};
use crate::entries::{kind, well_formed, Entry, Raw, UNUSED};
use crate::slips::{Law, Slip};
use std::ops::Range;

/// Verdict 8 over all classes and addresses, pair bytes aside.
pub fn check_rows<L: Law>(bundle: &Bundle) -> Result<(), Verdict> {
    for (number, class) in bundle.classes() {
        for (address, row) in (1..).zip(class.raw_rows()) {
            if !row_well_formed::<L>(row, bundle.count()) {
                return Err(Verdict::new(8, number, address));
            }
        }
    }
    Ok(())
}

fn row_well_formed<L: Law>(row: RawRow, classes: u8) -> bool {
    let Some((used, unused)) = row.stack.split_at_checked(row.depth) else {
        return false;
    };
    let mut in_use = row.variables.iter().chain(used);
    in_use.all(|&raw| well_formed(aside::<L>(raw), classes))
        && unused.iter().all(|&raw| is_unused::<L>(raw))
}

/// The entry with a pair that is well formed, if it has one.
fn aside<L: Law>(raw: Raw) -> Raw {
    let [first, class, ..] = raw;
    match first {
        kind::REFERENCE if !L::slips(Slip::PairsLookedAt) => Entry::fresh(class).bytes(),
        kind::NULLABLE if L::slips(Slip::NullablePairAside) => Entry::Nullable { class }.bytes(),
        _ => raw,
    }
}

fn is_unused<L: Law>(raw: Raw) -> bool {
    let [first, class, ..] = raw;
    match L::slips(Slip::UnusedHasPair) {
        true => [first, class] == [0, 0],
        false => raw == UNUSED,
    }
}

/// Whether a record shares a byte with another or with the directory.
pub fn shares_a_byte<L: Law>(b: &[u8], bundle: &Bundle) -> bool {
    let parts = parts::<L>(b, bundle);
    let meet = |one: &Range<usize>, other: &Range<usize>| {
        let (begin, end) = (one.start.max(other.start), one.end.min(other.end));
        begin < end || L::slips(Slip::TouchingShares) && begin == end
    };
    let mut pairs = parts
        .iter()
        .enumerate()
        .flat_map(|(at, one)| parts[at + 1..].iter().map(move |other| (one, other)));
    pairs.any(|(one, other)| meet(one, other))
}

/// The records in the order of their classes, and the directory.
pub fn parts<L: Law>(b: &[u8], bundle: &Bundle) -> Vec<Range<usize>> {
    let records = bundle.classes();
    let records = records.map(|(_, class)| class.offset..class.offset + class.record.len());
    let trailer = b.len() - TRAILER;
    let directory = usize::from(u16::from_be_bytes([b[trailer], b[trailer + 1]]));
    let end = directory + DIRECTORY_ENTRY * usize::from(bundle.count());
    let directory = match L::slips(Slip::DirectoryShared) {
        true => None,
        false => Some(directory..end),
    };
    records.chain(directory).collect()
}
