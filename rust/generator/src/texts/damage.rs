//! Texts that are mostly no usages.

use crate::rng::Rng;

const SIGNS: &[u8] = b"0L.^&*()";
/// What people might write instead.
const STRAY: &[u8] = b"l \n1O,xX+|[]-\0";

/// Random signs, mostly few.
pub fn signs(rng: &mut Rng) -> Vec<u8> {
    let length = match rng.below(8) {
        0 => rng.below(260),
        _ => rng.below(9),
    };
    (0..length).map(|_| rng.pick(SIGNS)).collect()
}

/// One thing changed, perhaps harmlessly.
pub fn damage(rng: &mut Rng, mut text: Vec<u8>) -> Vec<u8> {
    let at = rng.below(text.len());
    match rng.below(8) {
        0 => text.truncate(at),
        1 => drop(text.remove(at)),
        2 => text.insert(at, rng.pick(SIGNS)),
        3 => text.push(rng.pick(STRAY)),
        4 => text.push(rng.pick(SIGNS)),
        5 => text[at] = stray(rng),
        6 => text[at] = rng.pick(SIGNS),
        _ => {
            let other = rng.below(text.len());
            text.swap(at, other);
        }
    }
    text
}

fn stray(rng: &mut Rng) -> u8 {
    match rng.chance(1, 4) {
        true => rng.byte(),
        false => rng.pick(STRAY),
    }
}
