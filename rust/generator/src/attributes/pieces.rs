//! The instructions of a method, before they are bytes.

use crate::rng::Rng;

/// One instruction, or the two of a pair.
#[derive(Clone, Debug)]
pub struct Piece {
    pub bytes: Vec<u8>,
    /// How many instructions are written for it.
    pub yields: usize,
    /// A branch's way.
    pub goes: Option<Goes>,
}

#[derive(Clone, Copy, Debug)]
pub enum Goes {
    /// To the beginning of this piece.
    To(usize),
    /// By this distance, wherever that is.
    By(i16),
}

#[derive(Clone, Debug)]
pub struct Pieces(pub Vec<Piece>);

impl Piece {
    fn new(bytes: &[u8], yields: usize) -> Piece {
        Piece {
            bytes: bytes.to_vec(),
            yields,
            goes: None,
        }
    }

    pub fn nop() -> Piece {
        Piece::new(&[0x00], 0)
    }

    pub fn is_pair(&self) -> bool {
        matches!(self.bytes.as_slice(), [.., _, 0xC2 | 0xC3])
    }

    /// An instruction that is read as it stands, whether it is taken or not.
    pub fn foreign(bytes: &[u8]) -> Piece {
        Piece::new(bytes, 1)
    }

    /// Anything that is taken. A branch goes to one of so many pieces.
    fn any(rng: &mut Rng, classes: &[u16], count: usize) -> Piece {
        match rng.below(20) {
            0 | 1 => Piece::nop(),
            2 => Piece::new(&[0x57], 1),
            3 => Piece::new(&[0x03], 1),
            4 | 5 => Piece::new(&of_variable(rng, 0x15, 0x1A), 1),
            6 => Piece::new(&of_variable(rng, 0x19, 0x2A), 1),
            7 => Piece::new(&of_variable(rng, 0x36, 0x3B), 1),
            8 => Piece::new(&of_variable(rng, 0x3A, 0x4B), 1),
            9..=11 => Piece {
                goes: Some(Goes::To(rng.below(count))),
                ..Piece::new(&[0x9A, 0, 0], 1)
            },
            12..=14 => {
                let aload = of_variable(rng, 0x19, 0x2A);
                let lock = rng.pick(&[0xC2, 0xC2, 0xC3]);
                Piece::new(&[&aload[..], &[lock]].concat(), 1)
            }
            15 | 16 => new(rng, classes),
            17 => Piece::new(&[0xBF], 1),
            18 => Piece::new(&[0xB1], 1),
            _ => Piece::new(&[0x84, variable(rng), 1], 3),
        }
    }
}

impl Pieces {
    pub fn few(rng: &mut Rng, classes: &[u16]) -> Pieces {
        let count = match rng.below(4) {
            0 => rng.between(1, 4),
            1 => rng.between(1, 60),
            _ => rng.between(2, 20),
        };
        let mut pieces = Pieces::any(rng, classes, count);
        if rng.chance(1, 4) {
            let nops = rng.between(1, 3);
            pieces.0.extend((0..nops).map(|_| Piece::nop()));
        }
        if rng.chance(1, 30) {
            pieces.0.retain(|piece| piece.yields == 0);
            pieces.0.push(Piece::nop());
        }
        pieces
    }

    /// Some 256 instructions, or all of them; the last may be a pair or an iinc.
    pub fn many(rng: &mut Rng, classes: &[u16]) -> Pieces {
        let wanted = rng.between(253, 259);
        let mut pieces = Pieces::any(rng, classes, 300);
        let mut written = 0;
        pieces.0.retain(|piece| {
            written += piece.yields;
            written <= wanted
        });
        let last = [
            Piece::new(&[0x84, 3, 1], 3),
            Piece::new(&[0x2B, 0xC2], 1),
            Piece::new(&[0x19, 4, 0xC3], 1),
            Piece::new(&[0xB1], 1),
            Piece::nop(),
        ];
        for _ in 0..rng.below(4) {
            pieces.0.push(last[rng.below(last.len())].clone());
        }
        pieces.keep_branches_inside();
        pieces
    }

    /// A few instructions among many nops.
    pub fn huge(rng: &mut Rng, classes: &[u16]) -> Pieces {
        let few = Pieces::any(rng, classes, 40);
        let nops = rng.pick(&[500, 1_000, 1_700]);
        let mut pieces = Pieces(vec![]);
        let mut starts = vec![];
        for piece in few.0 {
            let before = rng.below(nops);
            pieces.0.extend((0..before).map(|_| Piece::nop()));
            starts.push(pieces.0.len());
            pieces.0.push(piece);
        }
        for piece in &mut pieces.0 {
            if let Some(Goes::To(which)) = piece.goes {
                let to = starts.get(which).copied().unwrap_or(0);
                piece.goes = Some(Goes::To(to));
            }
        }
        pieces
    }

    fn any(rng: &mut Rng, classes: &[u16], count: usize) -> Pieces {
        Pieces(
            (0..count)
                .map(|_| Piece::any(rng, classes, count))
                .collect(),
        )
    }

    fn keep_branches_inside(&mut self) {
        let count = self.0.len().max(1);
        for piece in &mut self.0 {
            if let Some(Goes::To(which)) = piece.goes {
                piece.goes = Some(Goes::To(which % count));
            }
        }
    }

    /// The offset of each piece, and that of the end.
    pub fn offsets(&self) -> Vec<usize> {
        let mut offsets = vec![0];
        let mut at = 0;
        for piece in &self.0 {
            at += piece.bytes.len();
            offsets.push(at);
        }
        offsets
    }

    pub fn code(&self) -> Vec<u8> {
        let offsets = self.offsets();
        let mut code = vec![];
        for piece in &self.0 {
            let distance = match piece.goes {
                None => {
                    code.extend(&piece.bytes);
                    continue;
                }
                Some(Goes::By(distance)) => distance,
                Some(Goes::To(which)) => {
                    let target = offsets.get(which).copied().unwrap_or(0);
                    (target as i64 - code.len() as i64) as i16
                }
            };
            code.push(0x9A);
            code.extend(distance.to_be_bytes());
        }
        code
    }
}

fn variable(rng: &mut Rng) -> u8 {
    match rng.chance(1, 4) {
        true => rng.byte(),
        false => rng.below(6) as u8,
    }
}

/// The long form or a short one.
fn of_variable(rng: &mut Rng, long: u8, short: u8) -> Vec<u8> {
    match rng.chance(1, 2) {
        true => vec![long, variable(rng)],
        false => vec![short + rng.below(4) as u8],
    }
}

/// Mostly of a class that is read in the list, if there is one.
fn new(rng: &mut Rng, classes: &[u16]) -> Piece {
    let read = &classes[..classes.len().min(8)];
    let index = match read.is_empty() {
        true => return Piece::nop(),
        false => rng.pick(read),
    };
    let [high, low] = index.to_be_bytes();
    Piece::new(&[0xBB, high, low], 1)
}
