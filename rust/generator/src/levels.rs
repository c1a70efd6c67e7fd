//! Lists of levels: any, few that differ, such as do for a bundle or nearly do,
//! and lists that are too short or too long.

use crate::rng::Rng;
use reference::bundle::{Bundle, MAX_CLASSES};
use reference::levels::Demands;
use reference::order::Levels;
use reference::verify::verify;

/// A list for this bundle, of eight bytes.
pub fn levels(rng: &mut Rng, bundle: &[u8]) -> [u8; MAX_CLASSES] {
    let bytes = |rng: &mut Rng| std::array::from_fn(|_| rng.byte());
    let few = |rng: &mut Rng| std::array::from_fn(|_| rng.below(4) as u8);
    match (rng.below(8), doing(rng, bundle)) {
        (0, _) => bytes(rng),
        (1 | 2, _) | (_, None) => few(rng),
        (3 | 4, Some((levels, demands))) => nearly(rng, levels, &demands),
        (_, Some((levels, _))) => levels,
    }
}

/// A list of any other length.
pub fn other_length(rng: &mut Rng) -> Vec<u8> {
    let any = rng.below(40);
    let length = rng.pick(&[0, 1, 7, 7, 9, 9, 16, 256, 256 + MAX_CLASSES, any]);
    let length = length + usize::from(length == MAX_CLASSES);
    rng.bytes(length)
}

/// Levels that do for an accepted bundle, if there are any: as far apart as may
/// be, with any for the classes that it has not.
pub fn doing(rng: &mut Rng, bundle: &[u8]) -> Option<([u8; MAX_CLASSES], Demands)> {
    if verify(bundle).number > 0 {
        return None;
    }
    let opened = Bundle::open_with_code(bundle).ok()?;
    let demands = Demands::of(&opened);
    let Levels(least) = demands.levels()?;
    let steps = stairs(rng);
    let levels = std::array::from_fn(|class| match class < usize::from(opened.count()) {
        true => steps[usize::from(least[class])],
        false => rng.byte(),
    });
    Some((levels, demands))
}

/// Eight numbers, each above the one before; at times up to the highest.
fn stairs(rng: &mut Rng) -> [u8; MAX_CLASSES] {
    let apart = rng.pick(&[1, 1, 2, 30]);
    let first = rng.pick(&[0, 0, 1, 255 - (MAX_CLASSES - 1) * apart]);
    std::array::from_fn(|step| (first + step * apart) as u8)
}

/// With one class that is held no higher than what is taken meanwhile.
fn nearly(rng: &mut Rng, mut levels: [u8; MAX_CLASSES], demands: &Demands) -> [u8; MAX_CLASSES] {
    let nestings: Vec<_> = demands.sites().map(|site| site.nesting).collect();
    if !nestings.is_empty() {
        let nesting = rng.pick(&nestings);
        let taken = levels[usize::from(nesting.taken)];
        let lower = rng.below(usize::from(taken) + 1) as u8;
        levels[usize::from(nesting.held)] = rng.pick(&[taken, taken, lower]);
    }
    levels
}
