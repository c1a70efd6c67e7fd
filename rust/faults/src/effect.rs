//! What each instruction takes from the stack and pushes, as letters: `i` a word that is no reference, `r` a reference that is new to the walker.

/// Words taken, and what is pushed. Instructions that the walker runs by themselves (loads, stores, copies, calls, fields, constants) have none.
pub fn effect(opcode: u8) -> Option<(usize, &'static str)> {
    Some(match opcode {
        0x00 => (0, ""),                                     // nop
        0x01 => (0, "r"), // aconst_null: nothing else is that null
        0x02..=0x08 | 0x0b..=0x0d | 0x10 | 0x11 => (0, "i"), // one-word constants
        0x09 | 0x0a | 0x0e | 0x0f | 0x14 => (0, "ii"), // two-word constants
        0x2e | 0x30 | 0x33..=0x35 => (2, "i"), // array loads
        0x2f | 0x31 => (2, "ii"),
        0x32 => (2, "r"),                     // aaload
        0x4f | 0x51 | 0x53..=0x56 => (3, ""), // array stores
        0x50 | 0x52 => (4, ""),
        0x57 => (1, ""), // pop
        0x58 => (2, ""), // pop2
        0x60 | 0x62 | 0x64 | 0x66 | 0x68 | 0x6a | 0x6c | 0x6e | 0x70 | 0x72 => (2, "i"),
        0x61 | 0x63 | 0x65 | 0x67 | 0x69 | 0x6b | 0x6d | 0x6f | 0x71 | 0x73 => (4, "ii"),
        0x74 | 0x76 | 0x86 | 0x8b | 0x91..=0x93 => (1, "i"), // negation, narrow conversions
        0x75 | 0x77 | 0x8a | 0x8f => (2, "ii"),
        0x78 | 0x7a | 0x7c | 0x7e | 0x80 | 0x82 => (2, "i"), // shifts, logic
        0x79 | 0x7b | 0x7d => (3, "ii"),
        0x7f | 0x81 | 0x83 => (4, "ii"),
        0x84 => (0, ""),                        // iinc
        0x85 | 0x87 | 0x8c | 0x8d => (1, "ii"), // widening conversions
        0x88 | 0x89 | 0x8e | 0x90 => (2, "i"),
        0x94 | 0x97 | 0x98 => (4, "i"), // comparisons
        0x95 | 0x96 => (2, "i"),
        0x99..=0x9e | 0xc6 | 0xc7 | 0xaa | 0xab => (1, ""), // branches and switches
        0x9f..=0xa6 => (2, ""),
        0xa7 | 0xc8 => (0, ""),  // goto
        0xbb => (0, "r"),        // new
        0xbc | 0xbd => (1, "r"), // arrays
        0xbe | 0xc1 => (1, "i"), // arraylength, instanceof
        0xc0 => (0, ""),         // checkcast
        _ => return None,
    })
}

/// Whether the instruction may throw besides `athrow` itself: the conditions of the Java Virtual Machine Specification's chapter 6, errors of the machine and of
/// linking of instructions without a constant left out.
pub fn throws(opcode: u8) -> bool {
    matches!(opcode, 0x2e..=0x35 | 0x4f..=0x56 | 0x6c | 0x6d | 0x70 | 0x71 | 0xb2..=0xbe | 0xc0 | 0xc1 | 0xc5)
}
