//! Locks that a loop takes once more each turn, or gives back once more: no pair
//! is large enough for them.
//!
//! What one reference needs of another is an arrow with a number, by how much the
//! one must be above the other. Round a loop whose numbers add up to more than 0
//! each reference would have to be above itself.

use crate::bundle::{Addr, Bundle, Class};
use crate::entries::Pair;
use crate::needs::{Asked, Need, Needs, Node};
use crate::order::Place;
use crate::slips::AsWritten;

/// A loop, and what each turn of it leaves.
#[derive(Clone, Copy, Debug, PartialEq, Eq)]
pub struct Growth {
    pub class: u8,
    /// The lowest and the highest address of the loop.
    pub first: Addr,
    pub last: Addr,
    /// Where the reference stands at the lowest one.
    pub place: Place,
    /// By how much each turn takes more often than it gives back, or the other
    /// way round.
    pub more: i16,
    pub change: Change,
}

#[derive(Clone, Copy, Debug, PartialEq, Eq)]
pub enum Change {
    Taken,
    GivenBack,
}

/// The first class's loop that grows, if there is any; of a bundle that draws none
/// of the verdicts 1 to 8, pair bytes aside.
pub fn growth(b: &[u8]) -> Option<Growth> {
    let bundle = Bundle::open_with_code(b).ok()?;
    let mut classes = bundle.classes();
    classes.find_map(|(number, class)| {
        let nodes = Needs::of::<AsWritten>(&bundle, class).nodes;
        let taken = grown(number, class, &nodes, Change::Taken);
        taken.or_else(|| grown(number, class, &nodes, Change::GivenBack))
    })
}

fn grown(number: u8, class: &Class, nodes: &[Asked], change: Change) -> Option<Growth> {
    let side: fn(Pair) -> i16 = match change {
        Change::Taken => |pair| pair.end,
        Change::GivenBack => |pair| pair.dip,
    };
    let round = round_that_grows(nodes.len(), &arrows(nodes, side))?;
    let at = |arrow: &Arrow| nodes[arrow.from as usize];
    let first = round.iter().map(at).min_by_key(|asked| asked.address)?;
    let last = round.iter().map(at).max_by_key(|asked| asked.address)?;
    Some(Growth {
        class: number,
        first: Addr(first.address),
        last: Addr(last.address),
        place: Place::numbered(usize::from(first.place), class.variables),
        more: round.iter().map(|arrow| arrow.above).sum(),
        change,
    })
}

/// One reference must be so far above another.
#[derive(Clone, Copy)]
struct Arrow {
    from: Node,
    to: Node,
    above: i16,
}

/// Of a sum, the other part counts with the least that it can be.
fn arrows(nodes: &[Asked], side: fn(Pair) -> i16) -> Vec<Arrow> {
    let least = |node: Option<Node>| node.map_or(0, |node| side(nodes[node as usize].at_least));
    let mut arrows = vec![];
    for (from, asked) in (0..).zip(nodes) {
        for Need { of, moved } in [asked.next, asked.jump].into_iter().flatten() {
            for (to, other) in [(of[0], of[1]), (of[1], of[0])] {
                let above = side(moved) + least(other);
                arrows.extend(to.map(|to| Arrow { from, to, above }));
            }
        }
    }
    arrows
}

/// Longest paths, until none gets longer or some way leads round to itself.
fn round_that_grows(nodes: usize, arrows: &[Arrow]) -> Option<Vec<Arrow>> {
    let mut lengths = vec![0; nodes];
    let mut last: Vec<Option<Arrow>> = vec![None; nodes];
    loop {
        let mut grows = false;
        for arrow in arrows {
            let length: i32 = lengths[arrow.to as usize] + i32::from(arrow.above);
            let own = &mut lengths[arrow.from as usize];
            if length > *own {
                *own = length;
                last[arrow.from as usize] = Some(*arrow);
                grows = true;
            }
        }
        let round = round_of(&last);
        if round.is_some() || !grows {
            return round;
        }
    }
}

/// A way along the last arrows that leads round to itself.
fn round_of(last: &[Option<Arrow>]) -> Option<Vec<Arrow>> {
    // By which walk a reference was met first.
    let mut met = vec![usize::MAX; last.len()];
    for walk in 0..last.len() {
        let mut at = walk;
        while met[at] == usize::MAX {
            met[at] = walk;
            match last[at] {
                Some(arrow) => at = arrow.to as usize,
                None => break,
            }
        }
        if met[at] == walk && last[at].is_some() {
            return Some(once_round(last, at));
        }
    }
    None
}

fn once_round(last: &[Option<Arrow>], begin: usize) -> Vec<Arrow> {
    let mut round = vec![];
    let mut at = begin;
    while let Some(arrow) = last[at] {
        round.push(arrow);
        at = arrow.to as usize;
        if at == begin {
            break;
        }
    }
    round
}
