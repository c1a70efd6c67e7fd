//! Names and sizes of instructions.

use classfile::{instructions, opcode_name};

fn places(code: &[u8]) -> Vec<(usize, usize)> {
    instructions(code).map(|i| (i.at, i.bytes.len())).collect()
}

#[test]
fn names() {
    let told = [
        (0x00, "nop"),
        (0x15, "iload"),
        (0x2A, "aload_0"),
        (0x59, "dup"),
        (0x84, "iinc"),
        (0x9A, "ifne"),
        (0xA7, "goto"),
        (0xB1, "return"),
        (0xB4, "getfield"),
        (0xBA, "invokedynamic"),
        (0xBF, "athrow"),
        (0xC4, "wide"),
        (0xC9, "jsr_w"),
    ];
    for (opcode, name) in told {
        assert_eq!(opcode_name(opcode), Some(name));
    }
    assert!((0xCA..=0xFF).all(|opcode| opcode_name(opcode).is_none()));
}

#[test]
fn sizes() {
    // bipush, sipush, ldc2_w, iinc, goto_w, invokeinterface, multianewarray.
    let code = [
        &[0x10, 1][..],
        &[0x11, 0, 1],
        &[0x14, 0, 1],
        &[0x84, 0, 1],
        &[0xC8, 0, 0, 0, 0],
        &[0xB9, 0, 1, 1, 0],
        &[0xC5, 0, 1, 2],
        &[0xC4, 0x15, 0, 1],
        &[0xC4, 0x84, 0, 1, 0, 1],
        &[0xB1],
    ];
    let sizes: Vec<usize> = places(&code.concat())
        .iter()
        .map(|&(_, size)| size)
        .collect();
    let wanted: Vec<usize> = code.iter().map(|part| part.len()).collect();
    assert_eq!(sizes, wanted);
}

#[test]
fn switches() {
    let number = |n: i32| n.to_be_bytes();
    for nops in 0..4_usize {
        // The numbers begin at a multiple of four.
        let padding = vec![0; 3 - nops % 4];
        let begin = [vec![0; nops], vec![0xAA], padding.clone()].concat();
        let table = [
            number(9),
            number(-1),
            number(1),
            number(5),
            number(6),
            number(7),
        ]
        .concat();
        let code = [begin, table, vec![0xB1]].concat();
        let size = 1 + padding.len() + 12 + 12;
        assert_eq!(places(&code)[nops..], [(nops, size), (nops + size, 1)]);
        let begin = [vec![0; nops], vec![0xAB], padding.clone()].concat();
        let pairs = [
            number(9),
            number(2),
            number(1),
            number(2),
            number(3),
            number(4),
        ]
        .concat();
        let code = [begin, pairs, vec![0xB1]].concat();
        let size = 1 + padding.len() + 8 + 16;
        assert_eq!(places(&code)[nops..], [(nops, size), (nops + size, 1)]);
    }
}

#[test]
fn what_is_cut_off_or_has_no_name_ends_them() {
    assert!(places(&[]).is_empty());
    assert!(places(&[0x15]).is_empty());
    assert!(places(&[0xCA]).is_empty());
    assert_eq!(places(&[0x57, 0xFF, 0x57]), [(0, 1)]);
    let number = |n: i32| n.to_be_bytes();
    let switch = |opcode: u8, numbers: &[i32]| {
        let numbers: Vec<u8> = numbers.iter().flat_map(|&n| number(n)).collect();
        [vec![opcode, 0, 0, 0], numbers].concat()
    };
    // From high to low, from the lowest number to the highest, too many pairs,
    // fewer than none.
    assert!(places(&switch(0xAA, &[0, 5, 3])).is_empty());
    assert!(places(&switch(0xAA, &[0, i32::MIN, i32::MAX])).is_empty());
    assert!(places(&switch(0xAB, &[0, i32::MAX])).is_empty());
    assert!(places(&switch(0xAB, &[0, -1])).is_empty());
    assert!(places(&[0xAA, 0, 0]).is_empty());
}
