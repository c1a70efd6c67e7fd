//! Takes a good bundle in its plain layout and breaks one thing in it.

use super::anatomy::{classes, names, records, Record};
use super::random;
use crate::rng::Rng;
use reference::bundle::{Field, DIRECTORY_ENTRY, TRAILER};
use reference::entries::kind;
use reference::instructions::names_address;

/// Breaks one thing, perhaps harmlessly.
pub fn damage(rng: &mut Rng, mut b: Vec<u8>) -> Vec<u8> {
    let all = records(&b);
    let record = &all[rng.below(all.len())];
    match rng.below(39) {
        0 => flip(rng, &mut b),
        1 | 2 => trailer(rng, &mut b),
        3 => resize(rng, &mut b),
        4..=5 => directory(rng, &mut b, record),
        6 | 30 | 38 => move_record(rng, &mut b, record),
        7 | 31 | 32 => descriptor(rng, &mut b, &all),
        8 | 9 => raw_instruction(rng, &mut b, record),
        10..=12 => other_instruction(rng, &mut b, record),
        13 | 14 => jump(rng, &mut b, record),
        15 => swap(rng, &mut b, record),
        16 | 17 => depth(rng, &mut b, record),
        18 | 19 => raw_entry(rng, &mut b, record),
        20 => first_row(rng, &mut b, record),
        33 | 34 => exception(rng, &mut b),
        35 => field_count(rng, &mut b, record),
        36 | 37 => field_operand(rng, &mut b, &all),
        21..=26 => nudge(rng, &mut b, record),
        _ => other_entry(rng, &mut b, record),
    }
    b
}

/// One bit anywhere.
fn flip(rng: &mut Rng, b: &mut [u8]) {
    b[rng.below(b.len())] ^= 1 << rng.below(8);
}

fn trailer(rng: &mut Rng, b: &mut [u8]) {
    let at = b.len() - TRAILER + rng.below(TRAILER);
    b[at] = step_or_any(rng, b[at]);
}

/// Another exception class, or one that the bundle hasn't.
fn exception(rng: &mut Rng, b: &mut [u8]) {
    let at = b.len() - TRAILER + 3;
    b[at] = rng.below(classes(b) + 1) as u8;
}

/// A byte cut or added at the end, or all but a few cut.
fn resize(rng: &mut Rng, b: &mut Vec<u8>) {
    match rng.below(3) {
        0 => b.truncate(b.len() - 1),
        1 => b.push(rng.byte()),
        _ => b.truncate(rng.below(16)),
    }
}

fn directory(rng: &mut Rng, b: &mut [u8], record: &Record) {
    let at = record.entry + rng.below(DIRECTORY_ENTRY);
    b[at] = step_or_any(rng, b[at]);
}

/// Another field count, or one that no class may have.
fn field_count(rng: &mut Rng, b: &mut [u8], record: &Record) {
    let any = rng.byte();
    b[record.entry + 5] = rng.pick(&[0, 4, 5, 5, 255, any]);
}

/// A field's instruction whose class or field is one too high, or anything.
fn field_operand(rng: &mut Rng, b: &mut [u8], all: &[Record]) {
    let record = &all[rng.below(all.len())];
    let at = record.instruction(rng.below(record.code));
    let class = rng.below(all.len() + 1) as u8;
    let past = all.get(usize::from(class)).map_or(0, |own| own.fields) as u8;
    let operand = Field {
        class,
        number: past.min(3),
    };
    let any = rng.byte();
    b[at] = rng.pick(&[13, 14]);
    b[at + 1] = rng.pick(&[operand.operand(), operand.operand(), any]);
}

/// A record said to end at length - 8, just past it, or anywhere.
fn move_record(rng: &mut Rng, b: &mut [u8], record: &Record) {
    let length = record.end() - record.offset;
    let last = b.len() - TRAILER - length;
    let any = rng.below(b.len());
    let offset = rng.pick(&[last, last + 1, last + 1, b.len(), any]) as u16;
    b[record.entry..record.entry + 2].copy_from_slice(&offset.to_be_bytes());
}

fn step_or_any(rng: &mut Rng, byte: u8) -> u8 {
    match rng.below(3) {
        0 => byte.wrapping_add(1),
        1 => byte.wrapping_sub(1),
        _ => rng.byte(),
    }
}

/// A descriptor of some class that has one.
fn descriptor(rng: &mut Rng, b: &mut [u8], all: &[Record]) {
    let mut described = all.iter().rev();
    if let Some(record) = described.find(|record| record.descriptors() > 0) {
        let at = record.offset + rng.below(record.descriptors());
        let any = rng.byte();
        b[at] = rng.pick(&[0xFF, 0, all.len() as u8, all.len() as u8, 8, 0xFE, any]);
    }
}

/// One byte of one instruction.
fn raw_instruction(rng: &mut Rng, b: &mut [u8], record: &Record) {
    let at = record.instruction(rng.below(record.code)) + rng.below(4);
    b[at] = step_or_any(rng, b[at]);
}

/// Another instruction that keeps to the table.
fn other_instruction(rng: &mut Rng, b: &mut [u8], record: &Record) {
    let index = rng.below(record.code);
    let instr = random::instruction(rng, record.variables, &names(b), index + 1, record.code);
    let at = record.instruction(index);
    b[at..at + 4].copy_from_slice(&instr.bytes());
}

/// Another target or handler for an instruction that has one.
fn jump(rng: &mut Rng, b: &mut [u8], record: &Record) {
    let jumps: Vec<usize> = (0..record.code)
        .map(|index| record.instruction(index))
        .filter(|&at| names_address(b[at]))
        .collect();
    if !jumps.is_empty() {
        let at = rng.pick(&jumps);
        let target = rng.between(0, record.code + 1) as u16;
        b[at + 2..at + 4].copy_from_slice(&target.to_be_bytes());
    }
}

/// Two instructions change places.
fn swap(rng: &mut Rng, b: &mut [u8], record: &Record) {
    let one = record.instruction(rng.below(record.code));
    let two = record.instruction(rng.below(record.code));
    (0..4).for_each(|i| b.swap(one + i, two + i));
}

fn depth(rng: &mut Rng, b: &mut [u8], record: &Record) {
    let at = record.depth(rng.below(record.code));
    b[at] = step_or_any(rng, b[at]);
}

/// One byte of one entry.
fn raw_entry(rng: &mut Rng, b: &mut [u8], record: &Record) {
    let row = rng.below(record.code);
    if let Some(at) = record.some_entry(rng, row) {
        let byte = at + rng.below(4);
        b[byte] = step_or_any(rng, b[byte]);
    }
}

/// Another well-formed entry in row 1.
fn first_row(rng: &mut Rng, b: &mut [u8], record: &Record) {
    if record.variables > 0 {
        let at = record.row(0) + 4 * rng.below(record.variables);
        let entry = random::entry(rng, classes(b));
        b[at..at + 4].copy_from_slice(&entry.bytes());
    }
}

/// A reference's dip or end, one more or one less.
fn nudge(rng: &mut Rng, b: &mut [u8], record: &Record) {
    for _ in 0..20 {
        let row = rng.below(record.code);
        let Some(at) = record.some_entry(rng, row) else {
            return;
        };
        if b[at] == kind::REFERENCE {
            let byte = at + 2 + rng.below(2);
            b[byte] = if rng.chance(1, 2) {
                b[byte] + 1
            } else {
                b[byte].wrapping_sub(1)
            };
            return;
        }
    }
}

/// Another well-formed entry in the place of one in use.
fn other_entry(rng: &mut Rng, b: &mut [u8], record: &Record) {
    let row = rng.below(record.code);
    if let Some(at) = record.some_entry(rng, row).filter(|&at| b[at] != 0) {
        let entry = random::entry(rng, classes(b));
        b[at..at + 4].copy_from_slice(&entry.bytes());
    }
}
