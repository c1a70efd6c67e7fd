//! The instructions of a method, and where they stand.

use super::attribute::{Attribute, Entry};
use super::instructions::{Does, Instruction};
use super::law::Law;
use super::{Answer, Row};

/// What was read of a method.
pub(super) struct Method {
    pub instructions: Vec<Instruction>,
    pub entries: Vec<Entry>,
    /// How many instructions are written for it.
    pub count: u32,
    /// For each byte of the code, the address of the instruction whose first
    /// byte it is, from 1; else 0.
    pub addresses: Vec<u32>,
}

impl Method {
    /// The first instruction that isn't taken refuses the method.
    pub fn read<L: Law>(attribute: &Attribute, classes: &[u16]) -> Result<Method, Answer> {
        match Method::read_up_to::<L>(attribute, classes) {
            (method, None) => Ok(method),
            (method, Some(at)) => Err(L::unread(attribute, &method, at)),
        }
    }

    /// What can be read, and the offset of what can't.
    pub fn read_up_to<L: Law>(attribute: &Attribute, classes: &[u16]) -> (Method, Option<u32>) {
        let (length, bytes) = (attribute.code.len(), L::readable(attribute));
        let mut method = Method {
            instructions: vec![],
            entries: attribute.entries().collect(),
            count: 0,
            addresses: vec![0; length],
        };
        let mut at = 0;
        while at < length {
            let rest = bytes.get(at..).unwrap_or_default();
            let Some((does, size)) = Does::read::<L>(rest, classes) else {
                return (method, Some(at as u32));
            };
            method.add(at, does, size);
            at += usize::from(size);
        }
        (method, None)
    }

    fn add(&mut self, at: usize, does: Does, size: u8) {
        if let Some(address) = self.addresses.get_mut(at) {
            *address = self.count + 1;
        }
        self.instructions.push(Instruction {
            at: at as u32,
            size,
            before: self.count,
            does,
        });
        self.count += does.yields();
    }

    /// Each branch's offset and target.
    pub fn branches<L: Law>(&self) -> impl Iterator<Item = (u32, i64)> + '_ {
        self.instructions.iter().filter_map(|i| match i.does {
            Does::Branch(distance) => Some((i.at, L::target(i.at, distance))),
            _ => None,
        })
    }

    /// The address of what begins at this offset, if anything is written from
    /// there on.
    pub fn address(&self, target: i64) -> Option<u32> {
        let target = usize::try_from(target).ok()?;
        let address = self.addresses.get(target).copied()?;
        (1..=self.count).contains(&address).then_some(address)
    }

    /// What is written.
    pub fn rows<L: Law>(&self) -> Vec<Row> {
        let mut rows = vec![];
        for instruction in &self.instructions {
            match instruction.does {
                Does::Nop => {}
                Does::Increase(v) => rows.extend(L::increase(v)),
                does => rows.push(L::row(does, self.goes_to::<L>(instruction))),
            }
        }
        rows
    }

    /// The address of the branch's target or of the handler; 0 where there is
    /// none.
    fn goes_to<L: Law>(&self, instruction: &Instruction) -> u16 {
        let target = match instruction.does {
            Does::Branch(distance) => Some(L::target(instruction.at, distance)),
            does if L::throws(does) => {
                let entry = L::covering(&self.entries, L::covered(instruction));
                entry.map(|entry| i64::from(entry.handler))
            }
            _ => None,
        };
        let address = target.and_then(|target| L::address(self, target));
        address.map_or(0, |address| address as u16)
    }
}
