//! The weaver's gate: the parts of a bundle laid out, their pairs worked out, and
//! the finished bundle written into the output.

use crate::bundle::{Limits, Verdict, DIRECTORY_ENTRY, MAGIC, MAX_CLASSES, MAX_LENGTH, TRAILER};
use crate::entries::Raw;
use crate::fill::fill;
use crate::slips::{AsWritten, Law, Slip};

/// A class's directory numbers as they are handed over: n, V, K, fields, k (2).
pub const NUMBERS: usize = 6;
/// An entry as it is handed over: its kind and its class.
pub const KIND: usize = 2;

const LENGTH: Verdict = Verdict::new(1, 0, 0);
const THROWN: Verdict = Verdict::new(3, 0, 0);
const NONE: Verdict = Verdict::new(22, 0, 0);
const ROOM: Verdict = Verdict::new(24, 0, 0);
const LENGTHS: Verdict = Verdict::new(27, 0, 0);

/// What a weaver hands over; each slice has all classes one after the other.
#[derive(Clone, Copy, Debug)]
pub struct Parts<'a> {
    pub classes: u32,
    pub exception: u32,
    /// The directory numbers of each class.
    pub directory: &'a [u8],
    /// Of each class its arguments' and then its fields'.
    pub descriptors: &'a [u8],
    /// Four bytes each.
    pub instructions: &'a [u8],
    /// Of each row V + K entries.
    pub kinds: &'a [u8],
    /// A byte for each row.
    pub depths: &'a [u8],
}

/// What the gate answers: verdict 0 names the class count, and comes with the
/// length that is written; with a refusal that is 0.
#[derive(Clone, Copy, Debug, PartialEq, Eq)]
pub struct Gated {
    pub verdict: Verdict,
    pub length: usize,
}

/// Writes the finished bundle. A refusal leaves the output as it was, and a
/// success what lies behind the bundle.
pub fn gate(parts: &Parts, out: &mut [u8]) -> Gated {
    gate_by::<AsWritten>(parts, out)
}

pub(crate) fn gate_by<L: Law>(parts: &Parts, out: &mut [u8]) -> Gated {
    match write::<L>(parts, out) {
        Ok(length) => Gated {
            verdict: Verdict::new(0, parts.classes as u8, 0),
            length,
        },
        Err(verdict) => {
            if let (true, [first, ..]) = (L::slips(Slip::RefusalWrites), out) {
                *first = 0;
            }
            Gated { verdict, length: 0 }
        }
    }
}

/// 27, then what the bundle draws, then 24.
fn write<L: Law>(parts: &Parts, out: &mut [u8]) -> Result<usize, Verdict> {
    let room = match L::slips(Slip::ExactIsTooShort) {
        true => out.len().saturating_sub(1),
        false => out.len(),
    };
    let too_short = || room < whole_length(&parts.numbers::<L>());
    if L::slips(Slip::RoomBeforeLengths) && too_short() {
        return Err(ROOM);
    }
    let classes = parts.checked::<L>().ok_or(LENGTHS)?;
    if L::slips(Slip::RoomBeforePairs) && too_short() {
        return Err(ROOM);
    }
    let bundle = finish::<L>(parts, &classes)?;
    if room < bundle.len() {
        return Err(ROOM);
    }
    let (written, rest) = out.split_at_mut(bundle.len());
    written.copy_from_slice(&bundle);
    if L::slips(Slip::RestIsCleared) {
        rest.fill(0);
    }
    match L::slips(Slip::LengthOfOutput) {
        true => Ok(out.len()),
        false => Ok(bundle.len()),
    }
}

/// The bundle with its pairs: 1, then 3, then what `fill` draws of it.
fn finish<L: Law>(parts: &Parts, classes: &[Limits]) -> Result<Vec<u8>, Verdict> {
    let too_long = whole_length(classes) > MAX_LENGTH && !L::slips(Slip::LengthOfTwoBytes);
    if too_long && !L::slips(Slip::ThrownBeforeLength) {
        return Err(LENGTH);
    }
    if L::slips(Slip::LimitsBeforeThrown) {
        limits_hold(classes)?;
    }
    let exception = match L::slips(Slip::ExceptionOfOneByte) {
        true => parts.exception % 256,
        false => parts.exception,
    };
    if exception >= parts.classes {
        return Err(THROWN);
    }
    let laid = lay_out::<L>(parts, classes);
    let mut bundle = laid.clone();
    match fill(&mut bundle) {
        Verdict { number: 0, .. } if L::slips(Slip::PairsLeftOut) => Ok(laid),
        Verdict { number: 0, .. } => Ok(bundle),
        Verdict { number: 8, .. } if L::slips(Slip::MalformedHasNoPairs) => Err(NONE),
        refused => Err(refused),
    }
}

fn limits_hold(classes: &[Limits]) -> Result<(), Verdict> {
    let broken = (0..)
        .zip(classes)
        .find(|(class, limits)| !limits.hold(*class));
    match broken {
        Some((class, _)) => Err(Verdict::new(4, class, 0)),
        None => Ok(()),
    }
}

impl Parts<'_> {
    /// The directory numbers, with the offsets of the records that they ask for.
    fn numbers<L: Law>(&self) -> Vec<Limits> {
        let mut offset = 0;
        let entries = self.directory.chunks_exact(NUMBERS);
        let numbers = entries.map(|entry| {
            let limits = Limits {
                offset,
                arguments: usize::from(entry[0]),
                variables: usize::from(entry[1]),
                stack: usize::from(entry[2]),
                fields: usize::from(entry[3]),
                code: match L::slips(Slip::CodeLowByteFirst) {
                    true => usize::from(u16::from_le_bytes([entry[4], entry[5]])),
                    false => usize::from(u16::from_be_bytes([entry[4], entry[5]])),
                },
            };
            offset += limits.record_length();
            limits
        });
        numbers.collect()
    }

    /// The same, where the class count is 1 to 8 and every slice as long as it and
    /// they ask.
    fn checked<L: Law>(&self) -> Option<Vec<Limits>> {
        let count = match L::slips(Slip::CountOfOneByte) {
            true => self.classes as usize % 256,
            false => self.classes as usize,
        };
        let is_long = |slice: &[u8], asked: usize| match L::slips(Slip::LongerTaken) {
            true => slice.len() >= asked,
            false => slice.len() == asked,
        };
        let mut numbers = self.numbers::<L>();
        if !(1..=MAX_CLASSES).contains(&count) || !is_long(self.directory, NUMBERS * count) {
            return None;
        }
        numbers.truncate(count);
        let asked = |part: fn(&Limits) -> usize| numbers.iter().map(part).sum();
        let are_long = is_long(self.descriptors, asked(descriptors))
            && is_long(self.instructions, asked(|class| 4 * class.code))
            && is_long(
                self.kinds,
                asked(|class| KIND * class.code * entries(class)),
            )
            && is_long(self.depths, asked(|class| class.code));
        are_long.then_some(numbers)
    }
}

fn descriptors(class: &Limits) -> usize {
    class.arguments + class.fields
}

fn entries(class: &Limits) -> usize {
    class.variables + class.stack
}

/// Records, directory and trailer.
fn whole_length(classes: &[Limits]) -> usize {
    let records: usize = classes.iter().map(Limits::record_length).sum();
    records + DIRECTORY_ENTRY * classes.len() + TRAILER
}

/// The bundle before its pairs are worked out: records in class order, directory,
/// trailer. The slices are as long as the numbers ask.
fn lay_out<L: Law>(parts: &Parts, classes: &[Limits]) -> Vec<u8> {
    let mut rest = *parts;
    let (mut records, mut directory) = (vec![], vec![]);
    let before = match L::slips(Slip::DirectoryFirst) {
        true => DIRECTORY_ENTRY * classes.len(),
        false => 0,
    };
    for class in classes {
        directory.extend(((before + class.offset) as u16).to_be_bytes());
        directory.extend(taken(&mut rest.directory, NUMBERS));
        rest.take_record::<L>(class, &mut records);
    }
    let (at, mut bundle) = match L::slips(Slip::DirectoryFirst) {
        true => (0, [directory, records].concat()),
        false => (records.len(), [records, directory].concat()),
    };
    let exception = match L::slips(Slip::ExceptionNotWritten) {
        true => 0,
        false => parts.exception as u8,
    };
    let whole = bundle.len() + TRAILER;
    if L::slips(Slip::LengthOfTwoBytes) {
        bundle.truncate((whole % (MAX_LENGTH + 1)).saturating_sub(TRAILER));
    }
    bundle.extend((at as u16).to_be_bytes());
    bundle.extend([classes.len() as u8, exception]);
    bundle.extend((whole as u16).to_be_bytes());
    bundle.extend(MAGIC);
    bundle
}

impl Parts<'_> {
    /// Takes what belongs to the next class and adds its record.
    fn take_record<L: Law>(&mut self, class: &Limits, records: &mut Vec<u8>) {
        records.extend(taken(&mut self.descriptors, descriptors(class)));
        records.extend(taken(&mut self.instructions, 4 * class.code));
        let depths = taken(&mut self.depths, class.code);
        for row in 0..class.code {
            let mut kinds = taken(&mut self.kinds, KIND * entries(class));
            let stack_first = match L::slips(Slip::StackBeforeVariables) {
                true => taken(&mut kinds, KIND * class.stack),
                false => &[],
            };
            let variables = taken(&mut kinds, KIND * class.variables);
            let stack = [stack_first, kinds].concat();
            records.extend(variables.chunks_exact(KIND).flat_map(entry::<L>));
            let skipped = L::slips(Slip::DepthRowSkipped) && row > 0;
            records.extend(depths.get(row + usize::from(skipped)).or(Some(&0)));
            records.extend(stack.chunks_exact(KIND).flat_map(entry::<L>));
        }
    }
}

/// An entry whose pair bytes, if it has some, are still to come.
fn entry<L: Law>(given: &[u8]) -> Raw {
    match L::slips(Slip::ClassBeforeKind) {
        true => [given[1], given[0], 0, 0],
        false => [given[0], given[1], 0, 0],
    }
}

/// The next so many bytes, which then are gone from the slice; none where there
/// are fewer.
fn taken<'a>(slice: &mut &'a [u8], count: usize) -> &'a [u8] {
    slice.split_off(..count).unwrap_or_default()
}
