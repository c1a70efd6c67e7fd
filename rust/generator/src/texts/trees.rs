//! Random usages, and their texts.

use crate::rng::Rng;
use usages::Usage;

/// A usage of up to 40 nodes, mostly small, with brackets that it does not
/// need.
pub fn written(rng: &mut Rng) -> String {
    let nodes = nodes(rng);
    let usage = any(rng, nodes);
    loosely(rng, &usage)
}

/// The same of a reliable one.
pub fn reliable(rng: &mut Rng) -> String {
    let nodes = nodes(rng);
    let usage = settling(rng, 0, nodes);
    loosely(rng, &usage)
}

fn nodes(rng: &mut Rng) -> usize {
    match rng.below(3) {
        0 => rng.between(1, 40),
        _ => rng.between(1, 15),
    }
}

fn loosely(rng: &mut Rng, usage: &Usage) -> String {
    let loose = rng.chance(1, 2);
    usage.written(&mut || match rng.below(12) {
        0 if loose => 2,
        1..=3 if loose => 1,
        _ => 0,
    })
}

fn any(rng: &mut Rng, nodes: usize) -> Usage {
    match rng.below(6) {
        _ if nodes < 2 => Usage::Zero,
        0 | 1 => any(rng, nodes - 1).lock(),
        2 | 3 => any(rng, nodes - 1).unlock(),
        _ if nodes < 3 => any(rng, nodes),
        sign => {
            let left = rng.between(1, nodes - 2);
            let (u, v) = (any(rng, left), any(rng, nodes - 1 - left));
            match sign {
                4 => u.parallel(v),
                _ => u.choice(v),
            }
        }
    }
}

/// A usage that gives back the locks that are held, whatever steps are taken,
/// and no others; so many nodes, or a few more.
fn settling(rng: &mut Rng, held: usize, nodes: usize) -> Usage {
    let half = nodes / 2;
    match rng.below(6) {
        _ if nodes < 2 => (0..held).fold(Usage::Zero, |u, _| u.unlock()),
        0 | 1 => settling(rng, held + 1, nodes - 1).lock(),
        2 | 3 if held > 0 => settling(rng, held - 1, nodes - 1).unlock(),
        4 => settling(rng, held, half).choice(settling(rng, held, nodes - half)),
        _ => {
            let share = rng.below(held + 1);
            settling(rng, share, half).parallel(settling(rng, held - share, nodes - half))
        }
    }
}
