//! Random methods of instructions that are taken, whose stack is known at each
//! of them.
//!
//! Variables 0 to 2 are integers, 3 to 5 things or null, 6 is what can be
//! thrown; all are arguments. Statements begin and end with an empty stack,
//! and branches go to their beginnings; behind them stand the handlers, which
//! begin with what is thrown.

use generator::rng::Rng;

/// What a place holds.
#[derive(Clone, Copy, Debug, PartialEq, Eq)]
pub enum Kind {
    Integer,
    Reference,
}

pub const VARIABLES: [Kind; 7] = [
    Kind::Integer,
    Kind::Integer,
    Kind::Integer,
    Kind::Reference,
    Kind::Reference,
    Kind::Reference,
    Kind::Reference,
];

/// The variable of what can be thrown.
const THROWN: u8 = 6;

/// The indices of the constant pool that new names: things, and what can be
/// thrown. In this order they are the classes 0 and 1 of the bundle.
pub const THING: u16 = 2;
pub const THROWABLE: u16 = 4;

/// One instruction of Java.
#[derive(Clone, Debug)]
pub struct Instruction {
    pub at: usize,
    pub bytes: Vec<u8>,
    /// The stack after it, from the bottom; of a branch, on both ways.
    pub stack: Vec<Kind>,
    /// The offset that an ifne goes to.
    pub target: Option<usize>,
}

/// An entry of the exception table.
#[derive(Clone, Copy, Debug)]
pub struct Range {
    pub start: usize,
    pub end: usize,
    pub handler: usize,
}

#[derive(Clone, Debug)]
pub struct Method {
    pub instructions: Vec<Instruction>,
    pub table: Vec<Range>,
}

impl Method {
    pub fn random(rng: &mut Rng) -> Method {
        let mut writer = Writer::default();
        let mut starts = vec![];
        for _ in 0..rng.between(4, 14) {
            starts.push(writer.length());
            writer.statement(rng);
        }
        writer.add(&[0xB1], &[]);
        let handlers: Vec<usize> = (0..rng.below(4)).map(|_| writer.handler(rng)).collect();
        writer.branch(rng, &starts);
        let table = writer.table(rng, &handlers);
        Method {
            instructions: writer.0,
            table,
        }
    }

    /// The Code attribute, without anything between.
    pub fn attribute(&self) -> Vec<u8> {
        let code: Vec<u8> = self
            .instructions
            .iter()
            .flat_map(|i| i.bytes.clone())
            .collect();
        let mut bytes = vec![0; 10];
        bytes.extend((code.len() as u32).to_be_bytes());
        bytes.extend(code);
        bytes.extend((self.table.len() as u16).to_be_bytes());
        for range in &self.table {
            for field in [range.start, range.end, range.handler, 0] {
                bytes.extend((field as u16).to_be_bytes());
            }
        }
        bytes
    }
}

#[derive(Default)]
struct Writer(Vec<Instruction>);

impl Writer {
    fn length(&self) -> usize {
        self.0.last().map_or(0, |last| last.at + last.bytes.len())
    }

    fn add(&mut self, bytes: &[u8], stack: &[Kind]) {
        self.0.push(Instruction {
            at: self.length(),
            bytes: bytes.to_vec(),
            stack: stack.to_vec(),
            target: None,
        });
    }

    fn statement(&mut self, rng: &mut Rng) {
        use Kind::{Integer, Reference};
        let (v, w) = (rng.below(3) as u8, rng.below(3) as u8);
        let (a, b) = (rng.between(3, 5) as u8, rng.between(3, 5) as u8);
        let lock = rng.pick(&[0xC2, 0xC2, 0xC3]);
        match rng.below(16) {
            0 => self.add(&[0x00], &[]),
            1 | 2 => self.add(&[0x84, v, 1], &[]),
            3 => {
                self.add(&[0x03], &[Integer]);
                self.add(&[0x15, v], &[Integer, Integer]);
                self.add(&[0x36, w], &[Integer]);
                self.add(&[0x3B + v], &[]);
            }
            4 => {
                self.add(&[0x19, a], &[Reference]);
                self.add(&[0x1A + v], &[Reference, Integer]);
                self.add(&[0x57], &[Reference]);
                self.add(&[0x3A, b], &[]);
            }
            5..=7 => {
                self.add(&[0x1A + v], &[Integer]);
                self.add(&[0x9A, 0, 0], &[]);
            }
            8..=11 => {
                self.add(&[0x19, a], &[Reference]);
                self.add(&[lock], &[]);
            }
            12 => {
                self.add(&[0x2D], &[Reference]);
                self.add(&[0x57], &[]);
            }
            13 => {
                self.new(THING, &[Reference]);
                self.add(&[0x3A, a], &[]);
            }
            14 => {
                self.add(&[0x03], &[Integer]);
                self.new(THROWABLE, &[Integer, Reference]);
                self.add(&[0x3A, THROWN], &[Integer]);
                self.add(&[0x57], &[]);
            }
            _ => {
                self.add(&[0x03], &[Integer]);
                self.add(&[0x19, THROWN], &[Integer, Reference]);
                self.add(&[0xBF], &[]);
            }
        }
    }

    fn new(&mut self, class: u16, stack: &[Kind]) {
        let [high, low] = class.to_be_bytes();
        self.add(&[0xBB, high, low], stack);
    }

    /// Gives its offset.
    fn handler(&mut self, rng: &mut Rng) -> usize {
        let at = self.length();
        match rng.below(4) {
            0 => self.add(&[0x57], &[]),
            1 => self.add(&[0xBF], &[]),
            _ => self.add(&[0x3A, THROWN], &[]),
        }
        for _ in 0..rng.below(3) {
            self.statement(rng);
        }
        self.add(&[0xB1], &[]);
        at
    }

    /// Every ifne goes somewhere.
    fn branch(&mut self, rng: &mut Rng, starts: &[usize]) {
        for instruction in &mut self.0 {
            if instruction.bytes[0] == 0x9A {
                let target = rng.pick(starts);
                let distance = target as i64 - instruction.at as i64;
                let [high, low] = (distance as i16).to_be_bytes();
                instruction.bytes = vec![0x9A, high, low];
                instruction.target = Some(target);
            }
        }
    }

    /// Ranges from any instruction to any, those of a pair too.
    fn table(&self, rng: &mut Rng, handlers: &[usize]) -> Vec<Range> {
        if handlers.is_empty() {
            return vec![];
        }
        let range = |_| {
            let (a, b) = (rng.below(self.0.len()), rng.below(self.0.len()));
            Range {
                start: self.0[a.min(b)].at,
                end: self.0[a.max(b)].at,
                handler: rng.pick(handlers),
            }
        };
        (0..4).map(range).collect()
    }
}
