//! The least pairs that meet what is asked of them, as longest paths.
//!
//! References are the places of a graph, and what one needs of another is an
//! arrow to it. A reference that is on no way round is settled once, after all
//! that it needs; those on the ways round one another are settled together, by
//! going back from each that has risen to those that need it. No pair rises
//! above 63: where it would have to, none does.

use crate::entries::{Pair, MAX_WEIGHT};
use crate::needs::{Asked, Need, Node};
use crate::slips::{Law, Slip};
use std::collections::VecDeque;

/// The least pairs, stopped at their bounds.
pub fn least<L: Law>(nodes: &[Asked]) -> Vec<Pair> {
    let mut search = Search::new(nodes);
    for node in 0..nodes.len() as Node {
        search.explore::<L>(node);
    }
    search.pairs
}

/// Whether a pair is all that is asked of it.
pub fn is_met(asked: &Asked, pairs: &[Pair]) -> bool {
    let own = wanted(asked, pairs);
    own.dip <= asked.at_most.dip.min(MAX_WEIGHT) && own.end <= asked.at_most.end.min(MAX_WEIGHT)
}

/// What is wanted of a pair, bounds aside.
pub fn wanted(asked: &Asked, pairs: &[Pair]) -> Pair {
    let needs = [asked.next, asked.jump];
    needs.iter().flatten().fold(asked.at_least, |most, need| {
        let sum = sum(need, pairs);
        Pair::new(most.dip.max(sum.dip), most.end.max(sum.end))
    })
}

/// What a need comes to.
pub fn sum(need: &Need, pairs: &[Pair]) -> Pair {
    let weights = need.of.iter().flatten();
    weights.fold(need.moved, |sum, &node| sum.plus(pairs[node as usize]))
}

/// The arrows of a reference.
pub fn arrows(asked: &Asked) -> impl Iterator<Item = Node> {
    let of = |need: Option<Need>| need.map_or([None, None], |need| need.of);
    let [a, b] = of(asked.next);
    let [c, d] = of(asked.jump);
    [a, b, c, d].into_iter().flatten()
}

/// A reference that is being explored, and which of its arrows comes next.
struct Visit {
    node: Node,
    arrow: usize,
}

/// Not found yet.
const NEW: u32 = u32::MAX;
/// Settled: it belongs to no way round that is still open.
const SETTLED: u32 = u32::MAX - 1;

/// Tarjan's search for the ways round, deepest first.
struct Search<'a> {
    nodes: &'a [Asked],
    pairs: Vec<Pair>,
    /// When a reference was found.
    found: Vec<u32>,
    /// The earliest found that it leads back to.
    back: Vec<u32>,
    count: u32,
    /// Found, and not settled.
    open: Vec<Node>,
    visits: Vec<Visit>,
}

impl<'a> Search<'a> {
    fn new(nodes: &'a [Asked]) -> Search<'a> {
        Search {
            nodes,
            pairs: nodes.iter().map(|asked| asked.at_least).collect(),
            found: vec![NEW; nodes.len()],
            back: vec![NEW; nodes.len()],
            count: 0,
            open: vec![],
            visits: vec![],
        }
    }

    /// Settles a reference and all that it needs.
    fn explore<L: Law>(&mut self, root: Node) {
        if self.found[root as usize] != NEW {
            return;
        }
        self.visit(root);
        while let Some(Visit { node, arrow }) = self.visits.last_mut() {
            let (node, at) = (*node, *arrow);
            *arrow += 1;
            match arrows(&self.nodes[node as usize]).nth(at) {
                Some(to) => match self.found[to as usize] {
                    NEW => self.visit(to),
                    SETTLED => {}
                    found => self.lead_back(node, found),
                },
                None => self.leave::<L>(node),
            }
        }
    }

    fn visit(&mut self, node: Node) {
        self.found[node as usize] = self.count;
        self.back[node as usize] = self.count;
        self.count += 1;
        self.open.push(node);
        self.visits.push(Visit { node, arrow: 0 });
    }

    fn lead_back(&mut self, node: Node, to: u32) {
        let back = &mut self.back[node as usize];
        *back = (*back).min(to);
    }

    /// All arrows of a reference have been followed.
    fn leave<L: Law>(&mut self, node: Node) {
        self.visits.pop();
        let back = self.back[node as usize];
        if back == self.found[node as usize] {
            self.settle::<L>(node);
        } else if let Some(above) = self.visits.last() {
            let above = above.node;
            self.lead_back(above, back);
        }
    }

    /// Settles a reference and what was found after it and is open: these are
    /// on the ways round one another.
    fn settle<L: Law>(&mut self, first: Node) {
        let from = self.open.iter().rposition(|&node| node == first);
        let round = self.open.split_off(from.unwrap_or(0));
        match round[..] {
            [alone] => {
                self.raise(alone);
            }
            _ if L::slips(Slip::RoundOnce) => round.iter().for_each(|&node| {
                self.raise(node);
            }),
            _ => self.go_round(&round),
        }
        for node in round {
            self.found[node as usize] = SETTLED;
        }
    }

    /// Whether the pair had to rise.
    fn raise(&mut self, node: Node) -> bool {
        let wanted = wanted(&self.nodes[node as usize], &self.pairs);
        let wanted = Pair::new(wanted.dip.min(MAX_WEIGHT), wanted.end.min(MAX_WEIGHT));
        let own = &mut self.pairs[node as usize];
        let rises = *own != wanted;
        *own = wanted;
        rises
    }

    /// Raises pairs until none of those that need one another has to rise.
    fn go_round(&mut self, round: &[Node]) {
        let needing = Needing::among(self.nodes, round);
        let mut waits = vec![true; round.len()];
        let mut waiting: VecDeque<usize> = (0..round.len()).collect();
        while let Some(at) = waiting.pop_front() {
            waits[at] = false;
            if self.raise(round[at]) {
                for by in needing.of(at) {
                    if !waits[by] {
                        waits[by] = true;
                        waiting.push_back(by);
                    }
                }
            }
        }
    }
}

/// Which references of a way round need which, by their places in it.
struct Needing {
    /// Where those of a place begin in the list.
    begins: Vec<usize>,
    list: Vec<usize>,
}

impl Needing {
    fn among(nodes: &[Asked], round: &[Node]) -> Needing {
        let mut places: Vec<(Node, usize)> = round.iter().copied().zip(0..).collect();
        places.sort_unstable();
        let place = |node: Node| {
            let found = places.binary_search_by_key(&node, |&(node, _)| node);
            found.ok().map(|at| places[at].1)
        };
        let mut needed: Vec<(usize, usize)> = vec![];
        for (by, &node) in round.iter().enumerate() {
            let arrows = arrows(&nodes[node as usize]).filter_map(place);
            needed.extend(arrows.map(|to| (to, by)));
        }
        needed.sort_unstable();
        let begins = (0..=round.len())
            .map(|place| needed.partition_point(|&(to, _)| to < place))
            .collect();
        let list = needed.into_iter().map(|(_, by)| by).collect();
        Needing { begins, list }
    }

    fn of(&self, place: usize) -> impl Iterator<Item = usize> + '_ {
        self.list[self.begins[place]..self.begins[place + 1]]
            .iter()
            .copied()
    }
}
