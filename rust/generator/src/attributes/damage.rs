//! Attributes that are mostly not taken.

use super::pieces::{Piece, Pieces};
use crate::rng::Rng;
use reference::take::Attribute;

/// Random bytes, mostly with a length that they have room for.
pub fn bytes(rng: &mut Rng) -> Vec<u8> {
    let length = rng.below(60);
    let mut bytes = rng.bytes(length);
    if length > 16 && rng.chance(3, 4) {
        let code = rng.below(length - 15);
        bytes[10..14].copy_from_slice(&(code as u32).to_be_bytes());
        bytes[14 + code..16 + code].fill(0);
    }
    bytes
}

/// An instruction that is not taken, or not as it stands, anywhere.
pub fn add_foreign(rng: &mut Rng, pieces: &mut Pieces, classes: &[u16]) {
    let at = rng.below(pieces.0.len() + 1);
    let [a, b] = [rng.byte(), rng.below(4) as u8];
    let bytes: Vec<u8> = match rng.below(30) {
        // iinc by something else.
        0 => vec![0x84, b, rng.pick(&[0, 2, 255, a])],
        // A lock without its aload.
        1 => vec![rng.pick(&[0xC2, 0xC3])],
        2 => vec![0x2A + b, 0x00, 0xC2],
        3 => vec![0x1A + b, rng.pick(&[0xC2, 0xC3])],
        4 => vec![0x2A + b, 0xC2, rng.pick(&[0xC2, 0xC3])],
        5 => vec![0x15, b, 0xC2],
        // wide.
        6 => vec![0xC4, rng.pick(&[0x15, 0x19, 0x36, 0x84]), 0, b, 0, 1],
        // Near ones.
        7 => vec![rng.pick(&[0x01, 0x02, 0x04, 0x58, 0x59, 0xAC, 0xB0])],
        8 => vec![rng.pick(&[0x17, 0x16, 0x18, 0x37, 0x39]), b],
        9 => vec![rng.pick(&[0x99, 0xA7, 0x9B, 0xC7]), 0, 3],
        // A class that may be in the list by mistake.
        10 => vec![0xBB, a, b],
        11 => vec![0xBB, 0, b],
        12 | 13 => match classes.get(8..) {
            Some(unread @ [_, ..]) => {
                let [high, low] = rng.pick(unread).to_be_bytes();
                vec![0xBB, high, low]
            }
            _ => vec![0xBB],
        },
        _ => vec![a, 0x00, 0x00],
    };
    pieces.0.insert(at, Piece::foreign(&bytes));
}

/// Cut short somewhere, or with another length of its code or its table.
pub fn cut(rng: &mut Rng, mut bytes: Vec<u8>) -> Vec<u8> {
    let length = |bytes: &[u8]| u32::from_be_bytes([bytes[10], bytes[11], bytes[12], bytes[13]]);
    let code = length(&bytes);
    let other = match rng.below(12) {
        0 => 0,
        1 => rng.pick(&[
            u32::MAX,
            u32::MAX - 15,
            u32::MAX - 13,
            0xFFFF_FFF0,
            0x8000_0000,
        ]),
        2 => code | 0x0001_0000,
        3 => code + 1 + rng.below(3) as u32,
        4..=6 => code.saturating_sub(1 + rng.below(4) as u32),
        _ => {
            let table_end =
                Attribute::read(&bytes).map_or(0, |a| 16 + a.code.len() + a.table.len());
            let short = match rng.below(4) {
                0 => rng.below(bytes.len() + 1),
                1 => 8 + rng.below(9),
                _ => table_end.saturating_sub(rng.pick(&[0, 1, 2, 2, 2, 4, 6, 7, 8, 9, 10])),
            };
            bytes.truncate(short);
            return bytes;
        }
    };
    bytes[10..14].copy_from_slice(&other.to_be_bytes());
    // A shorter code mostly has a table behind it.
    let (code, other) = (code as usize, other as usize);
    if other < code && rng.chance(3, 4) {
        bytes.drain(14 + other..14 + code);
    }
    bytes
}

/// Some bytes changed, inserted or left out.
pub fn damage(rng: &mut Rng, mut bytes: Vec<u8>) -> Vec<u8> {
    for _ in 0..rng.between(1, 3) {
        let at = match bytes.len() > 14 && rng.chance(7, 8) {
            true => rng.between(14, bytes.len() - 1),
            false => rng.below(bytes.len()),
        };
        match rng.below(8) {
            0 if bytes.len() > 1 => drop(bytes.remove(at)),
            1 => bytes.insert(at, rng.byte()),
            2 => bytes[at] ^= 1 << rng.below(8),
            3 => bytes[at] = rng.pick(&[0x00, 0x2A, 0x84, 0x9A, 0xBB, 0xC2, 0xC3, 0xC4]),
            _ => bytes[at] = rng.byte(),
        }
    }
    bytes
}
