//! Both sides take the same methods from class files: number, count or offset,
//! and every byte of the lent buffer and around it.

use crate::{proved, Differences, Part};
use generator::attributes::marks::{Looked, MARKS};
use generator::attributes::{taking, Taking};
use generator::rng::Rng;
use reference::take::{take, Answer};
use std::ops::Range;

const NUMBERS: [u8; 6] = [0, 30, 31, 32, 33, 34];

/// The opcodes that are taken.
const TAKEN: [Range<u8>; 15] = [
    0x00..0x01,
    0x03..0x04,
    0x15..0x16,
    0x19..0x1E,
    0x2A..0x2E,
    0x36..0x37,
    0x3A..0x3F,
    0x4B..0x4F,
    0x57..0x58,
    0x84..0x85,
    0x9A..0x9B,
    0xB1..0xB2,
    0xBB..0xBC,
    0xBF..0xC0,
    0xC2..0xC4,
];

/// So many bytes on each side of the buffer are watched.
const CANARY: usize = 16;

#[derive(Debug)]
pub struct Takings {
    attributes: u64,
    bytes: usize,
    numbers: [u64; NUMBERS.len()],
    marks: [u64; MARKS.len()],
    /// How often each opcode was in a method that is taken, and how often it
    /// drew a 31.
    taken: [u64; 256],
    refused: [u64; 256],
    differences: Differences,
}

impl Default for Takings {
    fn default() -> Takings {
        Takings {
            attributes: 0,
            bytes: 0,
            numbers: [0; NUMBERS.len()],
            marks: [0; MARKS.len()],
            taken: [0; 256],
            refused: [0; 256],
            differences: Differences::default(),
        }
    }
}

/// Takes into a part of some bytes; gives all of them afterwards.
pub fn taken_by(
    take: impl Fn(&[u8], &[u16], &mut [u8]) -> Answer,
    taking: &Taking,
    seed: u64,
) -> (Answer, Vec<u8>) {
    let mut lent = Rng::new(seed).bytes(taking.room + 2 * CANARY);
    let out = &mut lent[CANARY..CANARY + taking.room];
    let answer = take(&taking.attribute, &taking.classes, out);
    (answer, lent)
}

impl Takings {
    fn count(&mut self, taking: &Taking) {
        let looked = Looked::at(taking);
        self.attributes += 1;
        self.bytes += taking.attribute.len();
        let number = NUMBERS.iter().position(|&n| looked.is(n));
        self.numbers[number.expect("one of these")] += 1;
        for (count, (_, has)) in self.marks.iter_mut().zip(MARKS) {
            *count += u64::from(has(&looked));
        }
        for opcode in looked.opcodes() {
            self.taken[usize::from(opcode)] += 1;
        }
        if let Some(opcode) = looked.refused_opcode() {
            self.refused[usize::from(opcode)] += 1;
        }
    }

    fn named(&self) -> Vec<(String, u64)> {
        let numbers = NUMBERS.iter().zip(self.numbers);
        let numbers = numbers.map(|(number, count)| (format!("answer {number}"), count));
        let marks = MARKS.iter().zip(self.marks);
        let marks = marks.map(|((name, _), count)| (name.to_string(), count));
        numbers.chain(marks).chain(self.opcodes()).collect()
    }

    /// The opcode that was taken least often, and of those that are not taken
    /// the one that was refused least often.
    fn opcodes(&self) -> [(String, u64); 2] {
        let least = |counts: &[u64; 256], wanted: fn(u8) -> bool| {
            let counted = (0..=255).filter(|&opcode| wanted(opcode));
            counted
                .map(|opcode| counts[usize::from(opcode)])
                .min()
                .unwrap_or(0)
        };
        let taken = least(&self.taken, is_taken);
        let refused = least(&self.refused, |opcode| !is_taken(opcode));
        [
            ("each opcode that is taken, at least".to_string(), taken),
            ("each opcode that is not, at least".to_string(), refused),
        ]
    }
}

fn is_taken(opcode: u8) -> bool {
    TAKEN.iter().any(|range| range.contains(&opcode))
}

impl Part for Takings {
    fn generated(&mut self, seed: u64) {
        let (family, taking) = taking(seed);
        let (wanted, wanted_bytes) = taken_by(take, &taking, seed);
        let (given, bytes) = taken_by(proved::take, &taking, seed);
        if (given, &bytes) != (wanted, &wanted_bytes) {
            let first = bytes.iter().zip(&wanted_bytes).position(|(a, b)| a != b);
            let what = format!(
                "attribute seed {seed} {family:?}: proved {given:?}, reference {wanted:?}, \
                 classes {:?}, room {}, first other byte {first:?} of those from {CANARY} before on",
                taking.classes, taking.room
            );
            self.differences.add(what, &[&taking.attribute]);
        }
        self.count(&taking);
    }

    fn print(&self) {
        let average = self.bytes / self.attributes.max(1) as usize;
        println!("attributes {}, {average} bytes on average", self.attributes);
        for (named, count) in self.named() {
            println!("  {named}: {count}");
        }
        println!("  differences: {}", self.differences.0);
    }

    fn differences(&self) -> u64 {
        self.differences.0
    }

    fn seen(&self) -> Vec<(String, u64)> {
        self.named()
    }
}
