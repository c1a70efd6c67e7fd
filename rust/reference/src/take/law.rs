//! What taking goes by, clause by clause. A slip is the same with one clause
//! changed.

use super::attribute::{Attribute, Entry};
use super::instructions::{java, Does, Instruction};
use super::method::Method;
use super::{Answer, Row};

/// The request as written, but for what a slip says otherwise.
pub(super) trait Law: Sized {
    /// A record has so many instructions at most.
    const MOST: u32 = 256;
    /// So many places of the list of classes are read.
    const PLACES: usize = 8;

    fn attribute(bytes: &[u8]) -> Option<Attribute<'_>> {
        Attribute::read(bytes)
    }

    /// The bytes that an instruction may have: cut off is by the code's length.
    fn readable<'a>(attribute: &Attribute<'a>) -> &'a [u8] {
        attribute.code
    }

    /// Which taken opcode this byte is read as.
    fn opcode(byte: u8) -> u8 {
        byte
    }

    /// The variable of a short form.
    fn short_form(number: u8) -> u8 {
        number
    }

    /// An aload of so many bytes, one with the lock instruction directly after
    /// it.
    fn loaded(variable: u8, size: u8, bytes: &[u8]) -> (Does, u8) {
        match bytes.get(usize::from(size)) {
            Some(&java::MONITORENTER) => (Does::Enter(variable), size + 1),
            Some(&java::MONITOREXIT) => (Does::Exit(variable), size + 1),
            _ => (Does::Load(variable), size),
        }
    }

    /// A lock instruction that no aload stands directly before.
    fn lone_lock(_opcode: u8) -> Option<(Does, u8)> {
        None
    }

    /// Whether iinc by this is taken.
    fn increases(by: u8) -> bool {
        by == 1
    }

    /// The first place of the index.
    fn class_number(classes: &[u16], index: u16) -> Option<u8> {
        let read = classes.iter().take(Self::PLACES);
        read.zip(0..)
            .find(|&(&class, _)| class == index)
            .map(|(_, number)| number)
    }

    /// The refusal of what can't be read at this offset.
    fn unread(_attribute: &Attribute, _read: &Method, at: u32) -> Answer {
        Answer::refused(31, at)
    }

    /// 32, 33 and 34 in their order.
    fn judge(method: &Method, room: usize) -> Result<(), Answer> {
        Self::places(method)?;
        Self::number(method)?;
        Self::room(method, room)
    }

    /// All branches first, then all entries of the table.
    fn places(method: &Method) -> Result<(), Answer> {
        Self::branches(method)?;
        Self::handlers(method)
    }

    fn branches(method: &Method) -> Result<(), Answer> {
        let mut branches = method.branches::<Self>();
        match branches.find(|&(_, target)| Self::address(method, target).is_none()) {
            Some((at, target)) => Err(Answer::refused(32, Self::named_branch(at, target))),
            None => Ok(()),
        }
    }

    fn named_branch(at: u32, _target: i64) -> u32 {
        at
    }

    fn handlers(method: &Method) -> Result<(), Answer> {
        let mut entries = method.entries.iter().filter(|e| Self::looks_at(method, e));
        match entries.find(|e| Self::address(method, i64::from(e.handler)).is_none()) {
            Some(entry) => Err(Answer::refused(32, Self::named_entry(entry))),
            None => Ok(()),
        }
    }

    /// Whether an entry's handler is looked at: all are.
    fn looks_at(_method: &Method, _entry: &Entry) -> bool {
        true
    }

    fn named_entry(entry: &Entry) -> u32 {
        u32::from(entry.handler)
    }

    fn number(method: &Method) -> Result<(), Answer> {
        Self::within(method, Self::MOST).map_err(|at| Answer::refused(33, at))
    }

    fn room(method: &Method, room: usize) -> Result<(), Answer> {
        let rows = u32::try_from(Self::rows_in(room)).unwrap_or(u32::MAX);
        Self::within(method, rows).map_err(|at| Answer::refused(34, at))
    }

    /// How many rows so many bytes have room for.
    fn rows_in(room: usize) -> usize {
        room / 4
    }

    /// No more than so many rows, or the offset of the first instruction that
    /// doesn't fit.
    fn within(method: &Method, most: u32) -> Result<(), u32> {
        if method.count <= most {
            return Ok(());
        }
        let over = |i: &&Instruction| !Self::fits(i, most);
        match method.instructions.iter().find(over) {
            Some(instruction) => Err(Self::named(method, instruction)),
            None => Ok(()),
        }
    }

    /// All that is written for the instruction.
    fn fits(instruction: &Instruction, most: u32) -> bool {
        instruction.before + instruction.does.yields() <= most
    }

    fn named(_method: &Method, instruction: &Instruction) -> u32 {
        instruction.at
    }

    /// Where a branch goes.
    fn target(at: u32, distance: i16) -> i64 {
        i64::from(at) + i64::from(distance)
    }

    /// The address of a taken instruction's first byte; of a nop, that of the
    /// next instruction written.
    fn address(method: &Method, target: i64) -> Option<u32> {
        method.address(target)
    }

    /// The offset by which an instruction is covered: of a pair, its lock's.
    fn covered(instruction: &Instruction) -> u32 {
        match instruction.does.is_pair() {
            true => instruction.at + u32::from(instruction.size) - 1,
            false => instruction.at,
        }
    }

    fn covers(entry: &Entry, offset: u32) -> bool {
        (u32::from(entry.start)..u32::from(entry.end)).contains(&offset)
    }

    /// The first entry that covers the offset.
    fn covering<'a>(entries: &'a [Entry], offset: u32) -> Option<&'a Entry> {
        entries.iter().find(|entry| Self::covers(entry, offset))
    }

    /// Whether an instruction carries a handler.
    fn throws(does: Does) -> bool {
        matches!(does, Does::Enter(_) | Does::New(_) | Does::Athrow)
    }

    /// What iinc by 1 becomes.
    fn increase(variable: u8) -> [Row; 3] {
        [[4, variable, 0, 0], [1, 0, 0, 0], [5, variable, 0, 0]]
    }

    fn row(does: Does, address: u16) -> Row {
        does.row(address)
    }

    fn write(rows: &[Row], out: &mut [u8]) {
        for (to, row) in out.chunks_mut(4).zip(rows) {
            to.copy_from_slice(&row[..to.len()]);
        }
    }

    /// What a refusal does to the buffer: nothing.
    fn leave(_refusal: Answer, _out: &mut [u8]) {}
}

#[derive(Clone, Copy, Debug)]
pub(super) struct AsWritten;

impl Law for AsWritten {}
