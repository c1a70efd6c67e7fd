//! Where a pair is asked for that can't be had, and along which way.

use crate::bundle::{Addr, Bundle, Class};
use crate::entries::Pair;
use crate::growth::Change;
use crate::needs::{Asked, Need, Needs, Node};
use crate::order::Place;
use crate::paths::{is_met, least, sum, wanted};
use crate::slips::AsWritten;

/// The two numbers of a pair.
#[derive(Clone, Copy, Debug, PartialEq, Eq)]
pub enum Side {
    Dip,
    End,
}

impl Side {
    fn of(self, pair: Pair) -> i16 {
        match self {
            Side::Dip => pair.dip,
            Side::End => pair.end,
        }
    }
}

/// A reference whose pair would have to be larger than it can be.
#[derive(Clone, Debug, PartialEq, Eq)]
pub struct Demand {
    pub class: u8,
    pub place: Place,
    pub side: Side,
    pub wanted: i16,
    pub at_most: i16,
    /// From its address on to where it is asked for first, each with what is done
    /// there to the lock.
    pub way: Vec<(Addr, Option<Change>)>,
}

/// The first class's first such reference; of a bundle that draws none of the
/// verdicts 1 to 8, pair bytes aside. None where a loop asks for ever more, and
/// where kinds, classes and depths alone are broken.
pub fn demand(b: &[u8]) -> Option<Demand> {
    let bundle = Bundle::open_with_code(b).ok()?;
    let mut classes = bundle.classes();
    classes.find_map(|(number, class)| {
        let nodes = Needs::of::<AsWritten>(&bundle, class).nodes;
        let pairs = least::<AsWritten>(&nodes);
        let first = nodes.iter().position(|asked| !is_met(asked, &pairs))?;
        demanded(number, class, &nodes, &pairs, first)
    })
}

fn demanded(
    number: u8,
    class: &Class,
    nodes: &[Asked],
    pairs: &[Pair],
    first: usize,
) -> Option<Demand> {
    let asked = nodes[first];
    let own = wanted(&asked, pairs);
    let side = match own.dip > asked.at_most.dip {
        true => Side::Dip,
        false => Side::End,
    };
    Some(Demand {
        class: number,
        place: Place::numbered(usize::from(asked.place), class.variables),
        side,
        wanted: side.of(own),
        at_most: side.of(asked.at_most),
        way: way(nodes, pairs, first, side)?,
    })
}

/// Along what is asked for most, until something is asked for by itself. None
/// where that leads round.
fn way(
    nodes: &[Asked],
    pairs: &[Pair],
    first: usize,
    side: Side,
) -> Option<Vec<(Addr, Option<Change>)>> {
    let mut way = vec![];
    let mut at = first;
    for _ in nodes {
        let asked = &nodes[at];
        let most = side.of(wanted(asked, pairs));
        let needs = [asked.next, asked.jump].into_iter().flatten();
        let mut needs = needs.filter(|need| side.of(sum(need, pairs)) == most);
        let need = match side.of(asked.at_least) < most {
            true => needs.next(),
            false => None,
        };
        way.push((Addr(asked.address), need.and_then(change)));
        let Some(next) = need.and_then(|need| largest(&need, pairs, side)) else {
            return Some(way);
        };
        at = next as usize;
    }
    None
}

fn change(need: Need) -> Option<Change> {
    match need.moved.end {
        1 => Some(Change::Taken),
        -1 => Some(Change::GivenBack),
        _ => None,
    }
}

fn largest(need: &Need, pairs: &[Pair], side: Side) -> Option<Node> {
    let of = need.of.into_iter().flatten();
    of.max_by_key(|&node| side.of(pairs[node as usize]))
}
