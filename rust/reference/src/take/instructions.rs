//! The instructions of Java that are taken, read one by one.

use super::law::Law;
use super::Row;

/// Opcodes of the Java Virtual Machine Specification (chapter 6).
pub(super) mod java {
    pub const NOP: u8 = 0x00;
    pub const ACONST_NULL: u8 = 0x01;
    pub const ICONST_0: u8 = 0x03;
    pub const ICONST_1: u8 = 0x04;
    pub const ILOAD: u8 = 0x15;
    pub const FLOAD: u8 = 0x17;
    pub const ALOAD: u8 = 0x19;
    pub const ILOAD_0: u8 = 0x1A;
    pub const ILOAD_3: u8 = 0x1D;
    pub const ALOAD_0: u8 = 0x2A;
    pub const ALOAD_3: u8 = 0x2D;
    pub const ISTORE: u8 = 0x36;
    pub const ASTORE: u8 = 0x3A;
    pub const ISTORE_0: u8 = 0x3B;
    pub const ISTORE_3: u8 = 0x3E;
    pub const ASTORE_0: u8 = 0x4B;
    pub const ASTORE_3: u8 = 0x4E;
    pub const POP: u8 = 0x57;
    pub const POP2: u8 = 0x58;
    pub const IINC: u8 = 0x84;
    pub const IFEQ: u8 = 0x99;
    pub const IFNE: u8 = 0x9A;
    pub const IRETURN: u8 = 0xAC;
    pub const RETURN: u8 = 0xB1;
    pub const NEW: u8 = 0xBB;
    pub const ATHROW: u8 = 0xBF;
    pub const MONITORENTER: u8 = 0xC2;
    pub const MONITOREXIT: u8 = 0xC3;
    pub const WIDE: u8 = 0xC4;
}

use java::*;

/// What an instruction that is taken does, with its operand.
#[derive(Clone, Copy, Debug, PartialEq, Eq)]
pub enum Does {
    Nop,
    Pop,
    Push0,
    Load(u8),
    Store(u8),
    /// ifne, with its distance.
    Branch(i16),
    /// An aload and its monitorenter.
    Enter(u8),
    /// An aload and its monitorexit.
    Exit(u8),
    /// new, with its class number.
    New(u8),
    Athrow,
    Return,
    /// iinc by 1.
    Increase(u8),
}

/// One instruction that was read; a pair is one.
#[derive(Clone, Copy, Debug, PartialEq, Eq)]
pub struct Instruction {
    /// The offset of its first byte, and how many it has.
    pub at: u32,
    pub size: u8,
    /// How many are written before it.
    pub before: u32,
    pub does: Does,
}

impl Does {
    /// How many instructions are written for it.
    pub fn yields(self) -> u32 {
        match self {
            Does::Nop => 0,
            Does::Increase(_) => 3,
            _ => 1,
        }
    }

    pub fn is_pair(self) -> bool {
        matches!(self, Does::Enter(_) | Does::Exit(_))
    }

    /// The instruction at the beginning of these bytes and its size; none
    /// where it is not taken, or cut off.
    pub(super) fn read<L: Law>(bytes: &[u8], classes: &[u16]) -> Option<(Does, u8)> {
        let (&opcode, operands) = bytes.split_first()?;
        let opcode = L::opcode(opcode);
        Some(match opcode {
            NOP => (Does::Nop, 1),
            POP => (Does::Pop, 1),
            ICONST_0 => (Does::Push0, 1),
            ILOAD => (Does::Load(*operands.first()?), 2),
            ILOAD_0..=ILOAD_3 => (Does::Load(L::short_form(opcode - ILOAD_0)), 1),
            ALOAD => L::loaded(*operands.first()?, 2, bytes),
            ALOAD_0..=ALOAD_3 => L::loaded(L::short_form(opcode - ALOAD_0), 1, bytes),
            ISTORE | ASTORE => (Does::Store(*operands.first()?), 2),
            ISTORE_0..=ISTORE_3 => (Does::Store(L::short_form(opcode - ISTORE_0)), 1),
            ASTORE_0..=ASTORE_3 => (Does::Store(L::short_form(opcode - ASTORE_0)), 1),
            IFNE => (
                Does::Branch(i16::from_be_bytes(*operands.first_chunk()?)),
                3,
            ),
            NEW => {
                let index = u16::from_be_bytes(*operands.first_chunk()?);
                (Does::New(L::class_number(classes, index)?), 3)
            }
            ATHROW => (Does::Athrow, 1),
            RETURN => (Does::Return, 1),
            IINC => {
                let [variable, by] = *operands.first_chunk()?;
                L::increases(by).then_some((Does::Increase(variable), 3))?
            }
            MONITORENTER | MONITOREXIT => return L::lone_lock(opcode),
            _ => return None,
        })
    }

    /// What is written, with the branch's or the handler's address.
    pub(super) fn row(self, address: u16) -> Row {
        let [high, low] = address.to_be_bytes();
        match self {
            Does::Pop => [2, 0, 0, 0],
            Does::Push0 => [3, 0, 0, 0],
            Does::Load(v) => [4, v, 0, 0],
            Does::Store(v) => [5, v, 0, 0],
            Does::Branch(_) => [6, 0, high, low],
            Does::Enter(v) => [7, v, high, low],
            Does::Exit(v) => [8, v, high, low],
            Does::New(c) => [9, c, high, low],
            Does::Athrow => [11, 0, high, low],
            Does::Return => [12, 0, high, low],
            Does::Nop | Does::Increase(_) => [1, 0, 0, 0],
        }
    }
}
