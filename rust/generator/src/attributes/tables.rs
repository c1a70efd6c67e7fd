//! Exception tables, and what leads branches and handlers astray.

use super::pieces::{Goes, Piece, Pieces};
use crate::rng::Rng;

/// An entry of the exception table.
#[derive(Clone, Copy, Debug)]
pub struct Entry {
    pub start: u16,
    pub end: u16,
    pub handler: u16,
    pub catch: u16,
}

impl Entry {
    pub fn bytes(&self) -> Vec<u8> {
        let fields = [self.start, self.end, self.handler, self.catch];
        fields.into_iter().flat_map(u16::to_be_bytes).collect()
    }
}

/// A table whose handlers are in their place: some piece that is written, or a
/// nop before one.
pub fn table(rng: &mut Rng, pieces: &Pieces) -> Vec<Entry> {
    let offsets = pieces.offsets();
    let Some(last) = pieces.0.iter().rposition(|piece| piece.yields > 0) else {
        return vec![];
    };
    let count = match rng.below(10) {
        0..=2 => 0,
        9 => rng.between(4, 12),
        _ => rng.between(1, 3),
    };
    let entry = |_| {
        let (start, end) = (edge(rng, pieces, &offsets), edge(rng, pieces, &offsets));
        let turned = rng.chance(1, 8);
        Entry {
            start: if turned {
                start.max(end)
            } else {
                start.min(end)
            },
            end: if turned {
                start.min(end)
            } else {
                start.max(end)
            },
            handler: offsets[rng.below(last + 1)] as u16,
            catch: rng.pick(&[0, 0, 1, 7]),
        }
    };
    (0..count).map(entry).collect()
}

/// An edge of a range: where a piece begins, at a pair's lock, at the end, or
/// anywhere.
fn edge(rng: &mut Rng, pieces: &Pieces, offsets: &[usize]) -> u16 {
    let which = rng.below(pieces.0.len());
    let (begin, end) = (offsets[which], offsets[which + 1]);
    let edge = match rng.below(10) {
        0 => rng.below(offsets[pieces.0.len()] + 4),
        1 => 0,
        2 => rng.pick(&[offsets[pieces.0.len()], 0xFFFF]),
        3..=5 if pieces.0[which].is_pair() => rng.pick(&[end - 1, end]),
        _ => begin,
    };
    edge as u16
}

/// One to three branches and handlers go to places that they may not, or that
/// they hardly may.
pub fn lead_astray(rng: &mut Rng, pieces: &mut Pieces, table: &mut Vec<Entry>) {
    if rng.chance(1, 3) {
        let nops = rng.between(1, 3);
        pieces.0.extend((0..nops).map(|_| Piece::nop()));
    }
    for _ in 0..rng.between(1, 3) {
        let offsets = pieces.offsets();
        let place = odd_place(rng, pieces, &offsets);
        let branch = |piece: &Piece| piece.goes.is_some();
        let branches: Vec<usize> = (0..pieces.0.len())
            .filter(|&at| branch(&pieces.0[at]))
            .collect();
        match rng.chance(1, 2) && !branches.is_empty() {
            true => {
                let at = rng.pick(&branches);
                let distance = (place - offsets[at] as i64) as i16;
                pieces.0[at].goes = Some(Goes::By(distance));
            }
            false => {
                let (start, end) = (edge(rng, pieces, &offsets), edge(rng, pieces, &offsets));
                let entry = Entry {
                    start,
                    end,
                    handler: place as u16,
                    catch: rng.pick(&[0, 5]),
                };
                table.insert(rng.below(table.len() + 1), entry);
            }
        }
    }
}

fn odd_place(rng: &mut Rng, pieces: &Pieces, offsets: &[usize]) -> i64 {
    let whole = offsets[pieces.0.len()];
    let which = rng.below(pieces.0.len());
    let inside = offsets[which + 1] - 1;
    let pairs: Vec<usize> = (0..pieces.0.len())
        .filter(|&at| pieces.0[at].is_pair())
        .collect();
    let place = match rng.below(9) {
        0 | 1 if !pairs.is_empty() => offsets[rng.pick(&pairs) + 1] - 1,
        2 => whole,
        3 => whole + rng.between(1, 300),
        4 => return -(rng.between(1, 40) as i64),
        5 | 6 => whole - 1,
        7 => rng.below(whole),
        _ => inside,
    };
    place as i64
}
