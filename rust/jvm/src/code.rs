//! A method's code with a probe after each instruction, on each way that it
//! goes on.
//!
//! No handler covers a probe: each entry of the table covers the bytes of the
//! instructions that it covered before, and nothing else.

use crate::class::Probe;
use crate::method::{Kind, Method, VARIABLES};
use std::collections::BTreeMap;

/// Where what is on the stack is put while a probe looks at it.
const SPARE: u8 = 20;
const MOST_STACK: u16 = 20;
const MOST_VARIABLES: u16 = 40;

/// What a probe's number says was done.
#[derive(Clone, Copy, Debug, PartialEq, Eq)]
pub enum Done {
    /// The instruction at this offset, and it went on.
    Next(usize),
    /// The ifne at this offset, and it jumped.
    Jumped(usize),
    /// Something was thrown to the handler at this offset.
    Caught(usize),
}

impl Done {
    fn number(self) -> u16 {
        let (offset, kind) = match self {
            Done::Next(offset) => (offset, 0),
            Done::Jumped(offset) => (offset, 1),
            Done::Caught(offset) => (offset, 2),
        };
        (3 * offset + kind) as u16
    }

    pub fn from_number(number: usize) -> Done {
        let offset = number / 3;
        match number % 3 {
            0 => Done::Next(offset),
            1 => Done::Jumped(offset),
            _ => Done::Caught(offset),
        }
    }
}

pub struct Code {
    bytes: Vec<u8>,
    /// Where an instruction's bytes came to stand, by its offset.
    places: BTreeMap<usize, (usize, usize)>,
    table: Vec<[usize; 3]>,
    probe: Probe,
}

impl Code {
    pub fn of(method: &Method, probe: Probe) -> Code {
        let mut code = Code {
            bytes: vec![],
            places: BTreeMap::new(),
            table: vec![],
            probe,
        };
        for instruction in &method.instructions {
            let start = code.bytes.len();
            code.bytes.extend(&instruction.bytes);
            code.places
                .insert(instruction.at, (start, code.bytes.len()));
            // Behind athrow and return no one comes.
            if !matches!(instruction.bytes[0], 0xBF | 0xB1) {
                code.look(Done::Next(instruction.at), &instruction.stack);
            }
        }
        code.lead_branches(method);
        code.lead_handlers(method);
        code
    }

    /// A branch goes to a probe first.
    fn lead_branches(&mut self, method: &Method) {
        for instruction in &method.instructions {
            let Some(target) = instruction.target else {
                continue;
            };
            let (start, end) = self.places[&instruction.at];
            let distance = (self.bytes.len() - start) as u16;
            self.bytes[start + 1..end].copy_from_slice(&distance.to_be_bytes());
            self.look(Done::Jumped(instruction.at), &instruction.stack);
            self.go(target);
        }
    }

    /// So does what is thrown.
    fn lead_handlers(&mut self, method: &Method) {
        for range in &method.table {
            let handler = self.bytes.len();
            self.look(Done::Caught(range.handler), &[Kind::Reference]);
            self.go(range.handler);
            let covered = self.places.range(range.start..range.end);
            let entries = covered.map(|(_, &(start, end))| [start, end, handler]);
            self.table.extend(entries.collect::<Vec<_>>());
        }
    }

    /// goto_w to the place of what was at this offset.
    fn go(&mut self, target: usize) {
        let (place, _) = self.places[&target];
        let distance = place as i32 - self.bytes.len() as i32;
        self.bytes.push(0xC8);
        self.bytes.extend(distance.to_be_bytes());
    }

    /// A probe: it leaves variables and stack as they are.
    fn look(&mut self, done: Done, stack: &[Kind]) {
        let [high, low] = done.number().to_be_bytes();
        self.bytes.extend([0x11, high, low]);
        self.call(self.probe.at);
        for (variable, &kind) in (0..).zip(&VARIABLES) {
            self.tell(variable, kind);
        }
        self.call(self.probe.bar);
        let places: Vec<(u8, Kind)> = (SPARE..).zip(stack.iter().copied()).collect();
        for &(place, kind) in places.iter().rev() {
            let store = match kind {
                Kind::Integer => 0x36,
                Kind::Reference => 0x3A,
            };
            self.bytes.extend([store, place]);
        }
        for &(place, kind) in &places {
            self.tell(place, kind);
        }
        for &(place, kind) in &places {
            self.load(place, kind);
        }
        self.call(self.probe.end);
    }

    fn tell(&mut self, variable: u8, kind: Kind) {
        self.load(variable, kind);
        self.call(match kind {
            Kind::Integer => self.probe.integer,
            Kind::Reference => self.probe.reference,
        });
    }

    fn load(&mut self, variable: u8, kind: Kind) {
        let load = match kind {
            Kind::Integer => 0x15,
            Kind::Reference => 0x19,
        };
        self.bytes.extend([load, variable]);
    }

    fn call(&mut self, method: u16) {
        let [high, low] = method.to_be_bytes();
        self.bytes.extend([0xB8, high, low]);
    }

    /// What a Code attribute has behind its length.
    pub fn inside(&self) -> Vec<u8> {
        let mut inside = [MOST_STACK, MOST_VARIABLES].map(u16::to_be_bytes).concat();
        inside.extend((self.bytes.len() as u32).to_be_bytes());
        inside.extend(&self.bytes);
        inside.extend((self.table.len() as u16).to_be_bytes());
        for &[start, end, handler] in &self.table {
            for field in [start, end, handler, 0] {
                inside.extend((field as u16).to_be_bytes());
            }
        }
        inside.extend([0, 0]);
        inside
    }
}
