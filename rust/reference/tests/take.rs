//! Taking methods from class files, every sentence of request Q-9 and its
//! readings by hand.

use reference::take::{take, Answer};

/// What an entry of the exception table has: start, end, handler. The catch
/// type is not read.
type Entry = [u16; 3];

/// A Code attribute; what isn't read is no zero.
fn attribute(code: &[u8], table: &[Entry]) -> Vec<u8> {
    let mut bytes = vec![0xA1, 0xA2, 0xB1, 0xB2, 0xB3, 0xB4, 0xC1, 0xC2, 0xD1, 0xD2];
    bytes.extend((code.len() as u32).to_be_bytes());
    bytes.extend(code);
    bytes.extend((table.len() as u16).to_be_bytes());
    for [start, end, handler] in table {
        for field in [*start, *end, *handler, 0xEEEE] {
            bytes.extend(field.to_be_bytes());
        }
    }
    bytes
}

const CLASSES: [u16; 3] = [7, 0x0107, 9];

/// Both sides of the buffer that is lent, and what it held.
const BEFORE: u8 = 0x5A;

/// This attribute is taken as these rows, and the rest of the buffer stays.
fn rows_of(bytes: &[u8], rows: &[[u8; 4]]) {
    let mut out = [BEFORE; 1_100];
    let answer = take(bytes, &CLASSES, &mut out);
    let value = rows.len() as u32;
    assert_eq!(answer, Answer { number: 0, value }, "{bytes:02x?}");
    let written = rows.concat();
    assert_eq!(out[..written.len()], written, "{bytes:02x?}");
    assert!(out[written.len()..].iter().all(|&byte| byte == BEFORE));
}

fn taken(code: &[u8], table: &[Entry], rows: &[[u8; 4]]) {
    rows_of(&attribute(code, table), rows);
}

/// This attribute is refused, and the buffer stays.
fn refused_bytes(bytes: &[u8], room: usize, number: u8, value: u32) {
    let mut out = vec![BEFORE; room];
    let answer = take(bytes, &CLASSES, &mut out);
    assert_eq!(answer, Answer { number, value }, "{bytes:02x?}");
    assert!(out.iter().all(|&byte| byte == BEFORE));
}

fn refused(code: &[u8], table: &[Entry], number: u8, value: u32) {
    refused_bytes(&attribute(code, table), 1_024, number, value);
}

fn refused_in(room: usize, code: &[u8], number: u8, value: u32) {
    refused_bytes(&attribute(code, &[]), room, number, value);
}

#[test]
fn each_instruction() {
    taken(&[0x57], &[], &[[2, 0, 0, 0]]);
    taken(&[0x03], &[], &[[3, 0, 0, 0]]);
    taken(&[0xBF], &[], &[[11, 0, 0, 0]]);
    taken(&[0xB1], &[], &[[12, 0, 0, 0]]);
    taken(&[0x9A, 0, 0], &[], &[[6, 0, 0, 1]]);
    // iinc by 1 is load, inc, store.
    let increased = [[4, 200, 0, 0], [1, 0, 0, 0], [5, 200, 0, 0]];
    taken(&[0x84, 200, 1], &[], &increased);
    // nop yields nothing, also alone.
    taken(&[0x00], &[], &[]);
    taken(
        &[0, 0x57, 0, 0, 0x03, 0],
        &[],
        &[[2, 0, 0, 0], [3, 0, 0, 0]],
    );
}

#[test]
fn variables_and_their_short_forms() {
    for variable in [0, 3, 4, 255] {
        for opcode in [0x15, 0x19] {
            taken(&[opcode, variable], &[], &[[4, variable, 0, 0]]);
        }
        for opcode in [0x36, 0x3A] {
            taken(&[opcode, variable], &[], &[[5, variable, 0, 0]]);
        }
    }
    for variable in 0..4 {
        for first in [0x1A, 0x2A] {
            taken(&[first + variable], &[], &[[4, variable, 0, 0]]);
        }
        for first in [0x3B, 0x4B] {
            taken(&[first + variable], &[], &[[5, variable, 0, 0]]);
        }
    }
}

#[test]
fn locks_directly_after_an_aload() {
    taken(&[0x2A, 0xC2], &[], &[[7, 0, 0, 0]]);
    taken(&[0x2D, 0xC3], &[], &[[8, 3, 0, 0]]);
    taken(&[0x19, 77, 0xC2], &[], &[[7, 77, 0, 0]]);
    taken(&[0x19, 77, 0xC3], &[], &[[8, 77, 0, 0]]);
    // The variable's number is no lock instruction.
    taken(&[0x19, 0xC2, 0xC2], &[], &[[7, 0xC2, 0, 0]]);
    taken(&[0x19, 0xC2, 0x57], &[], &[[4, 0xC2, 0, 0], [2, 0, 0, 0]]);
    // An aload before a pair is by itself.
    taken(&[0x2A, 0x2B, 0xC2], &[], &[[4, 0, 0, 0], [7, 1, 0, 0]]);
    // At the lock's offset: alone, behind a nop, an iload, an astore, or the
    // second of an aload.
    refused(&[0xC2], &[], 31, 0);
    refused(&[0xC3], &[], 31, 0);
    refused(&[0x2A, 0x00, 0xC2], &[], 31, 2);
    refused(&[0x1A, 0xC2], &[], 31, 1);
    refused(&[0x15, 1, 0xC3], &[], 31, 2);
    refused(&[0x4B, 0xC2], &[], 31, 1);
    refused(&[0x2A, 0xC2, 0xC2], &[], 31, 2);
    refused(&[0x2A, 0xC2, 0xC3], &[], 31, 2);
    // javac's own synchronized: aload_0, dup, astore_1, monitorenter.
    refused(&[0x2A, 0x59, 0x4C, 0xC2, 0xB1], &[], 31, 1);
}

#[test]
fn opcodes_that_are_not_taken() {
    let taken: Vec<u8> = [0x00, 0x03, 0x15, 0x19, 0x36, 0x3A, 0x57, 0x84, 0x9A]
        .into_iter()
        .chain([0xB1, 0xBB, 0xBF, 0xC2, 0xC3])
        .chain(0x1A..=0x1D)
        .chain(0x2A..=0x2D)
        .chain(0x3B..=0x3E)
        .chain(0x4B..=0x4E)
        .collect();
    for opcode in (0..=255).filter(|opcode| !taken.contains(opcode)) {
        refused(&[0x57, opcode, 0, 1, 0, 0], &[], 31, 1);
    }
    // wide iload, wide iinc.
    refused(&[0xC4, 0x15, 0, 1], &[], 31, 0);
    refused(&[0xC4, 0x84, 0, 1, 0, 1], &[], 31, 0);
    // iinc by anything but 1.
    for by in [0, 2, 127, 128, 255] {
        refused(&[0x03, 0x84, 1, by], &[], 31, 1);
    }
}

#[test]
fn cut_off_by_the_code_s_length() {
    for code in [
        &[0x15][..],
        &[0x19],
        &[0x36],
        &[0x3A],
        &[0x84],
        &[0x84, 1],
        &[0x9A],
        &[0x9A, 0],
        &[0xBB],
        &[0xBB, 0],
    ] {
        refused(code, &[], 31, 0);
        let behind: Vec<u8> = [&[0x03, 0x57], code].concat();
        refused(&behind, &[], 31, 2);
    }
    // What lies behind the code could serve: the table's length is 0 and 7, and
    // a byte more is there.
    let mut bytes = attribute(&[0xBB], &[[0, 1, 0]; 7]);
    bytes.push(1);
    refused_bytes(&bytes, 1_024, 31, 0);
}

#[test]
fn class_numbers() {
    let new = |index: u16| {
        let [high, low] = index.to_be_bytes();
        [0xBB, high, low]
    };
    let of = |classes: &[u16], index| {
        let mut out = [BEFORE; 8];
        let answer = take(&attribute(&new(index), &[]), classes, &mut out);
        match answer.number {
            0 => Ok(out[1]),
            _ => Err((answer.number, answer.value)),
        }
    };
    assert_eq!(of(&CLASSES, 7), Ok(0));
    assert_eq!(of(&CLASSES, 0x0107), Ok(1));
    assert_eq!(of(&CLASSES, 9), Ok(2));
    assert_eq!(of(&CLASSES, 0x0109), Err((31, 0)));
    assert_eq!(of(&CLASSES, 0), Err((31, 0)));
    assert_eq!(of(&[], 7), Err((31, 0)));
    // The first place.
    assert_eq!(of(&[1, 5, 5, 5], 5), Ok(1));
    // Eight are read.
    let many = [1, 2, 3, 4, 5, 6, 7, 8, 9];
    assert_eq!(of(&many, 8), Ok(7));
    assert_eq!(of(&many, 9), Err((31, 0)));
    // 0 is an index like any other.
    assert_eq!(of(&[3, 0], 0), Ok(1));
    refused(&[0x03, 0x57, 0xBB, 0, 8], &[], 31, 2);
}

#[test]
fn attributes_cut_short() {
    let whole = attribute(&[0x57, 0xB1], &[[0, 2, 0], [1, 2, 1]]);
    rows_of(&whole, &[[2, 0, 0, 0], [12, 0, 0, 0]]);
    for length in 0..whole.len() {
        refused_bytes(&whole[..length], 1_024, 30, 0);
    }
    // What lies behind the table doesn't matter.
    let longer = [&whole[..], &[1, 2, 3]].concat();
    rows_of(&longer, &[[2, 0, 0, 0], [12, 0, 0, 0]]);
    // No code.
    refused(&[], &[], 30, 0);
    refused(&[], &[[0, 0, 0]], 30, 0);
    // A length beyond all that is there, which must not wrap.
    for length in [3, 0x0001_0002, 0x8000_0002, 0xFFFF_FFF0, 0xFFFF_FFFF_u32] {
        let mut bytes = whole.clone();
        bytes[10..14].copy_from_slice(&length.to_be_bytes());
        refused_bytes(&bytes, 1_024, 30, 0);
    }
    // 30 before all else: an opcode that isn't taken, and the table cut short.
    let bad = attribute(&[0xFF], &[[0, 1, 0]]);
    refused_bytes(&bad[..bad.len() - 1], 0, 30, 0);
}

#[test]
fn branches() {
    // 0 iconst_0, 1 ifne 5, 4 pop, 5 return.
    let code = [0x03, 0x9A, 0, 4, 0x57, 0xB1];
    let rows = [[3, 0, 0, 0], [6, 0, 0, 4], [2, 0, 0, 0], [12, 0, 0, 0]];
    taken(&code, &[], &rows);
    // Backwards, over an iinc: 0 iinc, 3 iload_0, 4 ifne 0, 7 return.
    let code = [0x84, 0, 1, 0x1A, 0x9A, 0xFF, 0xFC, 0xB1];
    let increase = [[4, 0, 0, 0], [1, 0, 0, 0], [5, 0, 0, 0]];
    let rest = [[4, 0, 0, 0], [6, 0, 0, 1], [12, 0, 0, 0]];
    taken(&code, &[], &[&increase[..], &rest].concat());
    // To itself, and to the instruction behind.
    taken(&[0x9A, 0, 0, 0xB1], &[], &[[6, 0, 0, 1], [12, 0, 0, 0]]);
    taken(&[0x9A, 0, 3, 0xB1], &[], &[[6, 0, 0, 2], [12, 0, 0, 0]]);
    // Behind an iinc: address 4; to a pair's first byte: 0 ifne 3, 3 aload 9,
    // 5 monitorenter, 6 return.
    let code = [0x9A, 0, 3, 0x19, 9, 0xC2, 0xB1];
    taken(&code, &[], &[[6, 0, 0, 2], [7, 9, 0, 0], [12, 0, 0, 0]]);
    // 256 is an address: 0 ifne 257, then 254 pops, and return.
    let code: Vec<u8> = [&[0x9A, 1, 1][..], &[0x57; 254], &[0xB1]].concat();
    let rows = [&[[6, 0, 1, 0]][..], &[[2, 0, 0, 0]; 254], &[[12, 0, 0, 0]]].concat();
    taken(&code, &[], &rows);
}

#[test]
fn branches_that_go_astray() {
    // 0 ifne, 3 aload 1, 5 monitorenter, 6 iinc, 9 return.
    let to = |distance: i16| {
        let [high, low] = distance.to_be_bytes();
        [0x9A, high, low, 0x19, 1, 0xC2, 0x84, 0, 1, 0xB1]
    };
    for right in [0, 3, 6, 9] {
        let mut out = [0; 64];
        assert_eq!(take(&attribute(&to(right), &[]), &[], &mut out).number, 0);
    }
    // Inside an instruction, at the lock byte, before and behind the code.
    for wrong in [1, 2, 4, 5, 7, 8, 10, 11, -1, i16::MIN, i16::MAX] {
        refused(&to(wrong), &[], 32, 0);
    }
    // The first such ifne, by its own offset.
    refused(&[0x9A, 0, 3, 0x9A, 0, 1, 0x9A, 0, 1, 0xB1], &[], 32, 3);
}

#[test]
fn nops_as_targets() {
    // 0 ifne 4, 3 pop, 4 nop, 5 nop, 6 return.
    let code = [0x9A, 0, 4, 0x57, 0, 0, 0xB1];
    taken(&code, &[], &[[6, 0, 0, 3], [2, 0, 0, 0], [12, 0, 0, 0]]);
    // 0 nop, 1 return, 2 ifne 0, 5 nop.
    let code = [0, 0xB1, 0x9A, 0xFF, 0xFE, 0];
    taken(&code, &[], &[[12, 0, 0, 0], [6, 0, 0, 1]]);
    // Nothing is written behind 3: 0 ifne 3, 3 nop, 4 nop.
    refused(&[0x9A, 0, 3, 0, 0], &[], 32, 0);
    // A handler at such a nop, by its own offset; also where there is nothing
    // but nops.
    refused(&[0xB1, 0, 0], &[[0, 1, 2]], 32, 2);
    refused(&[0, 0], &[[0, 1, 1]], 32, 1);
    taken(
        &[0xBF, 0, 0xB1],
        &[[0, 1, 1]],
        &[[11, 0, 0, 2], [12, 0, 0, 0]],
    );
}

#[test]
fn handlers() {
    // 0 nop, 1 athrow, 2 athrow, 3 pop, 4 return.
    let code = [0, 0xBF, 0xBF, 0x57, 0xB1];
    let rows = |first, second| {
        [
            [11, 0, 0, first],
            [11, 0, 0, second],
            [2, 0, 0, 0],
            [12, 0, 0, 0],
        ]
    };
    // The start counts, the end doesn't.
    taken(&code, &[[1, 2, 3]], &rows(3, 0));
    taken(&code, &[[2, 3, 4]], &rows(0, 4));
    taken(&code, &[[0, 5, 3]], &rows(3, 3));
    // The first that covers.
    taken(&code, &[[1, 2, 4], [0, 5, 3]], &rows(4, 3));
    taken(&code, &[[0, 5, 3], [1, 2, 4]], &rows(3, 3));
    taken(&code, &[[3, 5, 4], [2, 3, 3], [0, 5, 4]], &rows(4, 3));
    // Empty and turned ranges cover nothing; ranges may pass the code.
    taken(&code, &[[1, 1, 3], [2, 1, 3], [2, 0xFFFF, 4]], &rows(0, 4));
    // At the instruction itself, and at one before it.
    taken(&code, &[[2, 3, 1]], &rows(0, 1));
}

#[test]
fn who_carries_a_handler() {
    let all = [[0, 99, 0]];
    taken(&[0xBB, 0, 9], &all, &[[9, 2, 0, 1]]);
    taken(&[0xBF], &all, &[[11, 0, 0, 1]]);
    taken(&[0x2A, 0xC2], &all, &[[7, 0, 0, 1]]);
    taken(&[0x2A, 0xC3], &all, &[[8, 0, 0, 0]]);
    taken(&[0xB1], &all, &[[12, 0, 0, 0]]);
    taken(&[0x03], &all, &[[3, 0, 0, 0]]);
    taken(&[0x57], &all, &[[2, 0, 0, 0]]);
    taken(&[0x9A, 0, 0], &all, &[[6, 0, 0, 1]]);
    let increased = [[4, 0, 0, 0], [1, 0, 0, 0], [5, 0, 0, 0]];
    taken(&[0x84, 0, 1], &all, &increased);
}

#[test]
fn a_pair_is_covered_as_its_lock_is() {
    // 0 aload_0, 1 monitorenter, 2 aload 5, 4 monitorenter, 5 return.
    let code = [0x2A, 0xC2, 0x19, 5, 0xC2, 0xB1];
    let rows = |first, second| [[7, 0, 0, first], [7, 5, 0, second], [12, 0, 0, 0]];
    taken(&code, &[[0, 1, 5]], &rows(0, 0));
    taken(&code, &[[1, 2, 5]], &rows(3, 0));
    taken(&code, &[[2, 4, 5]], &rows(0, 0));
    taken(&code, &[[4, 5, 5]], &rows(0, 3));
    taken(&code, &[[1, 4, 5]], &rows(3, 0));
}

#[test]
fn handlers_that_go_astray() {
    // 0 pop, 1 aload_1, 2 monitorenter, 3 ifne 0, 6 return.
    let code = [0x57, 0x2B, 0xC2, 0x9A, 0xFF, 0xFD, 0xB1];
    for wrong in [2, 4, 5, 7, 8, 0xFFFF] {
        refused(&code, &[[0, 7, wrong]], 32, wrong.into());
        // Also of an empty or turned range, and of a range beyond the code.
        refused(&code, &[[3, 3, wrong]], 32, wrong.into());
        refused(&code, &[[6, 1, wrong]], 32, wrong.into());
        refused(&code, &[[900, 901, wrong]], 32, wrong.into());
    }
    // The first such entry of the table.
    refused(&code, &[[0, 1, 6], [0, 1, 5], [0, 1, 2]], 32, 5);
    // Every ifne comes before every entry.
    let stray = [0x57, 0x2B, 0xC2, 0x9A, 0, 1, 0xB1];
    refused(&stray, &[[0, 1, 2]], 32, 3);
}

#[test]
fn more_than_256_instructions() {
    let pops = |count| vec![0x57; count];
    taken(&pops(256), &[], &[[2, 0, 0, 0]; 256]);
    refused(&pops(257), &[], 33, 256);
    refused(&pops(60_000), &[], 33, 256);
    // nops don't count, a pair is one.
    let mut code = vec![0; 40_000];
    code.extend(pops(255));
    code.extend([0x2A, 0xC2]);
    refused_in(1_023, &code, 34, 40_255);
    code.push(0x57);
    refused(&code, &[], 33, 40_257);
    // A pair by its aload, an iinc that fits in part by its own offset.
    refused(&[pops(256), vec![0x2A, 0xC2]].concat(), &[], 33, 256);
    refused(&[pops(255), vec![0x84, 0, 1]].concat(), &[], 33, 255);
    refused(&[pops(254), vec![0x84, 0, 1]].concat(), &[], 33, 254);
    let increased = [[4, 0, 0, 0], [1, 0, 0, 0], [5, 0, 0, 0]];
    let rows = [vec![[2, 0, 0, 0]; 253], increased.to_vec()].concat();
    taken(&[pops(253), vec![0x84, 0, 1]].concat(), &[], &rows);
}

#[test]
fn buffers_that_are_too_short() {
    refused_in(0, &[0x57], 34, 0);
    refused_in(3, &[0x57], 34, 0);
    refused_in(4, &[0x00, 0x57, 0x00, 0x03], 34, 3);
    refused_in(7, &[0x57, 0x2A, 0xC2], 34, 1);
    refused_in(11, &[0x57, 0x84, 0, 1], 34, 1);
    refused_in(15, &[0x57, 0x84, 0, 1], 34, 1);
    refused_in(16, &[0x57, 0x84, 0, 1, 0xB1], 34, 4);
    // Room for all, to the byte; none for nothing.
    let mut out = [BEFORE; 16];
    let answer = take(&attribute(&[0x57, 0x84, 3, 1], &[]), &[], &mut out);
    assert_eq!(
        answer,
        Answer {
            number: 0,
            value: 4
        }
    );
    assert_eq!(out, [2, 0, 0, 0, 4, 3, 0, 0, 1, 0, 0, 0, 5, 3, 0, 0]);
    let answer = take(&attribute(&[0, 0], &[]), &[], &mut []);
    assert_eq!(
        answer,
        Answer {
            number: 0,
            value: 0
        }
    );
}

#[test]
fn the_order_of_refusals() {
    // 31 before 32: 0 ifne astray, 3 an opcode that isn't taken; a handler
    // astray.
    refused(&[0x9A, 0, 1, 0xFF], &[], 31, 3);
    refused(&[0x57, 0xFF], &[[0, 1, 9]], 31, 1);
    // The first of all 31s, whatever they are for.
    refused(&[0x03, 0xBB, 1, 1, 0xFF], &[], 31, 1);
    // 31 before 33 and 34.
    let code = [vec![0x57; 300], vec![0xFF]].concat();
    refused(&code, &[], 31, 300);
    refused_in(0, &[0x57, 0xFF], 31, 1);
    // 32 before 33 and 34.
    let code = [vec![0x57; 300], vec![0x9A, 0, 1]].concat();
    refused(&code, &[], 32, 300);
    refused_bytes(&attribute(&[0x57], &[[0, 1, 7]]), 0, 32, 7);
    // 33 before 34, also where the first that finds no room comes earlier.
    refused_in(8, &[0x57; 257], 33, 256);
    refused_in(0, &[0x57; 257], 33, 256);
}
