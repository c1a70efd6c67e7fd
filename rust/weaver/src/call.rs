//! The C call of the proved library; the only unsafe line is here.
#![allow(unsafe_code)]

use crate::GateRefusal;

extern "C" {
    fn hveitmar_gate(
        classes: u32,
        exception: u32,
        directory: *const u8,
        directory_length: usize,
        descriptors: *const u8,
        descriptors_length: usize,
        instructions: *const u8,
        instructions_length: usize,
        kinds: *const u8,
        kinds_length: usize,
        depths: *const u8,
        depths_length: usize,
        out: *mut u8,
        out_length: usize,
    ) -> u64;
}

/// What is handed to [`gate`]; each slice has all classes one after the other.
#[derive(Clone, Copy, Debug, Default, PartialEq, Eq)]
pub struct Parts<'a> {
    /// How many classes there are, 1 to 8.
    pub classes: u32,
    /// The class of what is thrown.
    pub exception: u32,
    /// Six bytes a class: how many arguments, variables, stack places and fields it
    /// has, and in two bytes, the high one first, how many instructions.
    pub directory: &'a [u8],
    /// A byte for each argument and then for each field of a class: 255 is an
    /// integer, another number a class.
    pub descriptors: &'a [u8],
    /// Four bytes each: opcode, operand, and in two the address field.
    pub instructions: &'a [u8],
    /// For each row two bytes, kind and class, of each variable and then of each
    /// stack place from the top; both are 0 where a place is not in use.
    pub kinds: &'a [u8],
    /// A byte for each row: how many stack places are in use.
    pub depths: &'a [u8],
}

/// What has been written.
#[derive(Clone, Copy, Debug, PartialEq, Eq)]
pub struct Written {
    /// How many classes the bundle has.
    pub classes: u8,
    /// How many bytes it has.
    pub length: usize,
}

/// Works the pairs out, checks the whole, and writes the bundle into `out`: records
/// in class order, directory, trailer. The verifier accepts what is written, and its
/// instructions are the ones given.
///
/// What lies behind the bundle stays as it is, and on a refusal all of `out` does.
///
/// ```
/// use weaver::{gate, GateRefusal, Parts, Written};
///
/// // One class with one instruction, return, and neither variables nor stack.
/// let mut parts = Parts {
///     classes: 1,
///     directory: &[0, 0, 0, 0, 0, 1],
///     instructions: &[12, 0, 0, 0],
///     depths: &[0],
///     ..Parts::default()
/// };
/// let mut out = [7; 22];
/// let written = Written { classes: 1, length: 21 };
/// assert_eq!(gate(&parts, &mut out), Ok(written));
/// let trailer = [0, 5, 1, 0, 0, 21, 0x4C, 0x4B];
/// assert_eq!(out[13..], [&trailer[..], &[7]].concat());
/// assert_eq!(gate(&parts, &mut out[..20]), Err(GateRefusal::Room));
/// parts.classes = 2;
/// assert_eq!(gate(&parts, &mut out), Err(GateRefusal::Lengths));
/// ```
pub fn gate(parts: &Parts, out: &mut [u8]) -> Result<Written, GateRefusal> {
    // SAFETY: the call reads and writes no more bytes than it is told that there are,
    // and keeps nothing; to those that it writes nothing else refers.
    let packed = unsafe {
        hveitmar_gate(
            parts.classes,
            parts.exception,
            parts.directory.as_ptr(),
            parts.directory.len(),
            parts.descriptors.as_ptr(),
            parts.descriptors.len(),
            parts.instructions.as_ptr(),
            parts.instructions.len(),
            parts.kinds.as_ptr(),
            parts.kinds.len(),
            parts.depths.as_ptr(),
            parts.depths.len(),
            out.as_mut_ptr(),
            out.len(),
        )
    };
    Written::unpacked(packed).unwrap_or_else(|| panic!("{packed:x} is no answer of the gate"))
}

impl Written {
    /// Reads the call's number, all of it: what the gate never answers is none here.
    fn unpacked(packed: u64) -> Option<Result<Written, GateRefusal>> {
        let [number, class, low, high, length @ ..] = packed.to_le_bytes();
        let (address, length) = (u16::from_le_bytes([low, high]), u32::from_le_bytes(length));
        if let (0, 1..=8, 0, 1..) = (number, class, address, length) {
            let (classes, length) = (class, length as usize);
            return Some(Ok(Written { classes, length }));
        }
        let refusal = match (number, class, address, length) {
            (27, 0, 0, 0) => GateRefusal::Lengths,
            (1, 0, 0, 0) => GateRefusal::TooLong,
            (3, 0, 0, 0) => GateRefusal::Exception,
            (4, class, 0, 0) => GateRefusal::Limits { class },
            (6, class, 0, 0) => GateRefusal::Descriptor { class },
            (7, class, address, 0) => GateRefusal::Instruction { class, address },
            (8, class, address, 0) => GateRefusal::Row { class, address },
            (22, 0, 0, 0) => GateRefusal::Pairs,
            (24, 0, 0, 0) => GateRefusal::Room,
            _ => return None,
        };
        Some(Err(refusal))
    }
}

#[cfg(test)]
mod tests {
    use super::*;

    #[test]
    fn numbers_are_read_as_they_are_written() {
        let told = [
            (8 << 8 | 65_535 << 32, "0 8 65535"),
            (27, "27 0 0"),
            (1, "1 0 0"),
            (3, "3 0 0"),
            (4 | 7 << 8, "4 7 0"),
            (6 | 7 << 8, "6 7 0"),
            (7 | 3 << 8 | 256 << 16, "7 3 256"),
            (8 | 3 << 8 | 256 << 16, "8 3 256"),
            (22, "22 0 0"),
            (24, "24 0 0"),
        ];
        for (packed, wanted) in told {
            let told = match Written::unpacked(packed).expect("an answer") {
                Ok(Written { classes, length }) => format!("0 {classes} {length}"),
                Err(refusal) => {
                    let (number, class) = (refusal.number(), refusal.class());
                    format!("{number} {class} {}", refusal.address())
                }
            };
            assert_eq!(told, wanted);
        }
    }

    #[test]
    fn other_numbers_are_no_answer() {
        let never = [2, 5, 9 | 1 << 16, 10, 23, 25, 26, 28, 0];
        let names_too_much = [27 | 1 << 8, 4 | 1 << 16, 22 | 1 << 16, 24 | 1 << 8];
        let lengths = [
            1 << 8,
            9 << 8 | 1 << 32,
            22 | 1 << 32,
            8 | 1 << 16 | 1 << 32,
        ];
        for packed in [&never[..], &names_too_much, &lengths].concat() {
            assert_eq!(Written::unpacked(packed), None, "{packed:x}");
        }
    }
}
