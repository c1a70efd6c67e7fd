//! A method's flow as lines and ways between them, with how often the faulty lock may be held at each: what a picture shows.

use skeleton::automaton::{Automaton, Operation};
use skeleton::instruction::{op, Instruction};
use skeleton::value::Name;
use std::collections::{BTreeSet, HashSet};

/// A run of instructions of one line.
#[derive(Clone, Debug, PartialEq, Eq)]
pub struct Block {
    pub line: u16,
    /// The first instruction's offset, and the last one's.
    pub offsets: (u32, u32),
    /// How often the lock may be held when the block begins; nothing where it is not reached.
    pub held: BTreeSet<u8>,
    /// What happens to locks in it.
    pub takes: bool,
    pub releases: bool,
    pub ends: bool,
}

/// A way from a block to another; `to` is `None` where the method is left.
#[derive(Clone, Copy, Debug, PartialEq, Eq, PartialOrd, Ord)]
pub struct Way {
    pub from: usize,
    pub to: Option<usize>,
    pub throw: bool,
}

#[derive(Clone, Debug, Default, PartialEq, Eq)]
pub struct Flow {
    pub blocks: Vec<Block>,
    pub ways: Vec<Way>,
}

/// Counts above this are not told apart.
const HIGHEST: u8 = 9;

/// How often one name may be held before each node.
fn counts(g: &Automaton, name: Name) -> Vec<BTreeSet<u8>> {
    let mut out = vec![BTreeSet::new(); g.len()];
    let mut todo = vec![(g.entry, 0u8)];
    while let Some((n, held)) = todo.pop() {
        if !out[n].insert(held) {
            continue;
        }
        let after = match g.operations[n] {
            Operation::Enter(v) if v == name => (held + 1).min(HIGHEST),
            Operation::Exit(v) if v == name => held.saturating_sub(1),
            _ => held,
        };
        todo.extend(g.successors[n].iter().map(|&s| (s, after)));
    }
    out
}

impl Flow {
    /// The flow of a method whose automaton is not reduced.
    pub fn of(all: &[Instruction], g: &Automaton, name: Name) -> Flow {
        let mut out = Flow::default();
        let mut block_of = vec![0; all.len()];
        for (k, i) in all.iter().enumerate() {
            let goes_on =
                k > 0 && i.line != 0 && all[k - 1].line == i.line && all[k - 1].next == Some(k);
            if !goes_on {
                let offsets = (i.offset(), i.offset());
                let held = BTreeSet::new();
                out.blocks.push(Block {
                    line: i.line,
                    offsets,
                    held,
                    takes: false,
                    releases: false,
                    ends: false,
                });
            }
            block_of[k] = out.blocks.len() - 1;
            let block = &mut out.blocks[block_of[k]];
            block.offsets.1 = i.offset();
            block.takes |= i.op == op::MONITORENTER;
            block.releases |= i.op == op::MONITOREXIT;
        }
        let held = counts(g, name);
        let mut begun: HashSet<usize> = HashSet::new();
        let mut ways = BTreeSet::new();
        for n in 1..g.len() {
            let Some(&k) = g.origins[n].first() else {
                continue;
            };
            let from = block_of[k];
            if all[k].offset() == out.blocks[from].offsets.0 || begun.insert(from) {
                out.blocks[from].held.extend(&held[n]);
                begun.insert(from);
            }
            for &s in &g.successors[n] {
                let to = g.origins[s].first().copied().filter(|_| s != 0);
                let inside = to == Some(k);
                if inside {
                    continue;
                }
                let normal = match to {
                    None => all[k].returns(),
                    Some(t) => all[k].next == Some(t) || all[k].targets.contains(&t),
                };
                out.blocks[from].ends |= to.is_none();
                let target = to.map(|t| block_of[t]);
                let stays = target == Some(from) && to == all[k].next;
                if !stays {
                    ways.insert(Way {
                        from,
                        to: target,
                        throw: !normal,
                    });
                }
            }
        }
        out.ways = ways.into_iter().collect();
        out
    }

    /// The block that an offset lies in.
    pub fn block(&self, offset: u32) -> Option<usize> {
        self.blocks
            .iter()
            .position(|b| (b.offsets.0..=b.offsets.1).contains(&offset))
    }
}
