//! Usages at the edges of what is taken: length, depth, dip and end.

use super::trees::written;
use crate::rng::Rng;
use usages::{DEEPEST, LONGEST};

/// 254 to 259 bytes, if the usage that it begins with isn't longer.
pub fn long(rng: &mut Rng) -> String {
    let mut text = match rng.below(4) {
        0 => wide(rng),
        1 => deep(rng),
        _ => written(rng),
    };
    let length = rng.between(LONGEST - 2, LONGEST + 3);
    // Three bytes, where the rest is odd; then two at a time.
    if (length - text.len().min(length)) % 2 == 1 {
        text = "^L.".to_string() + &text;
    }
    while text.len() + 2 <= length {
        text += rng.pick(&["*0", "*0", "&0"]);
    }
    text
}

/// So many brackets around a usage, with something in between now and then.
pub fn deep(rng: &mut Rng) -> String {
    let inner = match rng.below(8) {
        0 => wide(rng),
        1..=3 => "0".to_string(),
        _ => written(rng),
    };
    let pairs = match rng.below(8) {
        0 => rng.between(1, 30),
        1 => rng.between(90, 127),
        _ => rng.between(DEEPEST - 2, DEEPEST + 2),
    };
    let rarely = rng.pick(&[4, 1_000]);
    (0..pairs).fold(inner, |text, _| {
        let before = match rng.below(rarely) {
            0 => rng.pick(&["L.", "^L.", "0*", "0&"]),
            _ => "",
        };
        format!("{before}({text})")
    })
}

/// Locks, then a dip, then a rise, each near an edge or near 0; at times as
/// two usages side by side.
pub fn wide(rng: &mut Rng) -> String {
    let locks = rng.pick(&[0, 0, 0, 1, 2, 20]);
    let dip = edge(rng);
    let rise = match dip > 40 {
        true => rng.pick(&[0, 0, 1, 2, 20]),
        false => edge(rng),
    };
    let text = "L.".repeat(locks) + &falling(rng, dip, rise);
    match rng.below(6) {
        0 => text + "&" + &written(rng),
        1 => text + "&0",
        _ => text,
    }
}

fn edge(rng: &mut Rng) -> usize {
    match rng.below(5) {
        0 => rng.below(3),
        1 => rng.below(50),
        _ => rng.between(61, 66),
    }
}

fn falling(rng: &mut Rng, dip: usize, rise: usize) -> String {
    let chain = |dip, rise| "^L.".repeat(dip) + &"L.".repeat(rise) + "0";
    if rng.chance(2, 3) {
        return chain(dip, rise);
    }
    let (fall, climb) = (rng.below(dip + 1), rng.below(rise + 1));
    format!(
        "({}*{})",
        chain(fall, climb),
        chain(dip - fall, rise - climb)
    )
}
