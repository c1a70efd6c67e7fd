//! What happens in a method between taking a lock and giving it back, read off the automaton before it is made small.

use skeleton::automaton::{Automaton, Operation};
use skeleton::instruction::{op, Instruction};
use skeleton::value::Name;
use std::collections::{BTreeSet, HashSet};

/// The strata, each method in one: the first of the later ones that fits it.
pub const STRATA: [&str; 10] = [
    "no monitors",
    "straight line",
    "branch",
    "loop",
    "handler only",
    "nested, one class",
    "nested, two classes",
    "nested, with a branch",
    "nested, with a loop",
    "re-entry",
];

/// What is there while a lock is held.
#[derive(Clone, Copy, Debug, Default, PartialEq, Eq, Hash, PartialOrd, Ord)]
pub struct Features {
    /// A branch: `if`, `switch`.
    pub branch: bool,
    /// A circle.
    pub circle: bool,
    /// A lock whose every release is reached by a throw alone.
    pub handler_only: bool,
    /// Another lock.
    pub nested: bool,
    /// Another lock, and it is not known that the two are of one class.
    pub two_classes: bool,
    /// The same lock again.
    pub again: bool,
    /// How many branches there are while a lock is held.
    pub branches: usize,
    /// How many ways lead from the start to an end without a jump back, counted up to [`MOST_WAYS`].
    pub ways: u64,
    /// How many lines the method has.
    pub lines: usize,
}

/// Ways through a method are counted up to this.
pub const MOST_WAYS: u64 = 1_000_000;

fn is_branch(i: &Instruction) -> bool {
    matches!(
        i.op,
        op::IFEQ..=166 | op::TABLESWITCH | op::LOOKUPSWITCH | op::IFNULL | op::IFNONNULL
    )
}

/// The nodes that are reached while a name is held, each with the names that may be.
fn held(g: &Automaton) -> Vec<BTreeSet<Name>> {
    let mut seen: HashSet<(usize, BTreeSet<Name>)> = HashSet::new();
    let mut out = vec![BTreeSet::new(); g.len()];
    let mut todo = vec![(g.entry, BTreeSet::new())];
    while let Some((n, names)) = todo.pop() {
        if !seen.insert((n, names.clone())) {
            continue;
        }
        out[n].extend(&names);
        let mut after = names;
        match g.operations[n] {
            Operation::Enter(v) => {
                after.insert(v);
            }
            Operation::Exit(v) => {
                after.remove(&v);
            }
            _ => {}
        }
        todo.extend(g.successors[n].iter().map(|&s| (s, after.clone())));
    }
    out
}

/// Whether an edge is a throw.
fn is_throw(all: &[Instruction], g: &Automaton, from: usize, to: usize) -> bool {
    let (Some(&k), Some(&t)) = (g.origins[from].first(), g.origins[to].first()) else {
        return false;
    };
    k != t && all[k].next != Some(t) && !all[k].targets.contains(&t)
}

/// Whether a release of a lock can be reached from where it was taken without a throw.
fn released_plainly(all: &[Instruction], g: &Automaton, enter: usize, v: Name) -> bool {
    let mut seen = vec![false; g.len()];
    let mut todo = vec![enter];
    while let Some(n) = todo.pop() {
        if n != enter && g.operations[n] == Operation::Exit(v) {
            return true;
        }
        if !std::mem::replace(&mut seen[n], true) {
            todo.extend(g.successors[n].iter().filter(|&&s| !is_throw(all, g, n, s)));
        }
    }
    false
}

/// Whether there is a circle, without throws, among the nodes where something is held.
fn has_circle(all: &[Instruction], g: &Automaton, held: &[BTreeSet<Name>]) -> bool {
    // Nodes on no circle fall away one after the other, from those that nothing leads to.
    let inside = |n: usize| !held[n].is_empty();
    let mut before = vec![0usize; g.len()];
    let onward = |n: usize| {
        let plain = g.successors[n].iter().copied();
        plain
            .filter(move |&s| inside(n) && inside(s) && !is_throw(all, g, n, s))
            .collect::<Vec<_>>()
    };
    for n in 0..g.len() {
        for s in onward(n) {
            before[s] += 1;
        }
    }
    let mut todo: Vec<usize> = (0..g.len())
        .filter(|&n| inside(n) && before[n] == 0)
        .collect();
    let mut gone = 0;
    while let Some(n) = todo.pop() {
        gone += 1;
        for s in onward(n) {
            before[s] -= 1;
            if before[s] == 0 {
                todo.push(s);
            }
        }
    }
    gone < (0..g.len()).filter(|&n| inside(n)).count()
}

/// The ways to the end that go back nowhere: along the edges that a walk in depth does not find leading to a node it has not left yet.
fn ways(g: &Automaton) -> u64 {
    const ON: Option<u64> = None;
    let mut count: Vec<Option<Option<u64>>> = vec![None; g.len()];
    count[0] = Some(Some(1));
    let mut todo = vec![(g.entry, 0, 0u64)];
    if g.entry != 0 {
        count[g.entry] = Some(ON);
    }
    let mut last = 1;
    while let Some((n, next, so_far)) = todo.last_mut() {
        match g.successors[*n].get(*next) {
            Some(&s) => match count[s] {
                Some(known) => {
                    *next += 1;
                    *so_far = (*so_far + known.unwrap_or(0)).min(MOST_WAYS);
                }
                None => {
                    count[s] = Some(ON);
                    todo.push((s, 0, 0));
                }
            },
            None => {
                last = if *n == 0 { 1 } else { *so_far };
                count[*n] = Some(Some(last));
                todo.pop();
            }
        }
    }
    last
}

impl Features {
    /// Of a method's instructions and its automaton; `class_of` tells the class of a reference, where it is known.
    pub fn of(
        all: &[Instruction],
        g: &Automaton,
        class_of: impl Fn(Name) -> Option<String>,
    ) -> Features {
        let held = held(g);
        let mut out = Features {
            circle: has_circle(all, g, &held),
            ..Features::default()
        };
        let mut branches = BTreeSet::new();
        for n in 0..g.len() {
            if let Operation::Enter(v) = g.operations[n] {
                out.again |= held[n].contains(&v);
                let one_class = |x: Name| class_of(x).is_some_and(|c| class_of(v) == Some(c));
                out.nested |= held[n].iter().any(|&x| x != v);
                out.two_classes |= held[n].iter().any(|&x| x != v && !one_class(x));
                out.handler_only |= !released_plainly(all, g, n, v);
            }
            let Some(&k) = g.origins[n].first() else {
                continue;
            };
            if !held[n].is_empty() && is_branch(&all[k]) {
                branches.insert(k);
            }
        }
        out.branches = branches.len();
        out.branch = out.branches > 0;
        out.ways = ways(g);
        out.lines = all
            .iter()
            .map(|i| i.line)
            .filter(|&l| l != 0)
            .collect::<BTreeSet<_>>()
            .len();
        out
    }

    /// The stratum, by its place in [`STRATA`].
    pub fn stratum(&self) -> usize {
        match self {
            Features { again: true, .. } => 9,
            Features {
                nested: true,
                circle: true,
                ..
            } => 8,
            Features {
                nested: true,
                branch: true,
                ..
            } => 7,
            Features {
                nested: true,
                two_classes: true,
                ..
            } => 6,
            Features { nested: true, .. } => 5,
            Features {
                handler_only: true, ..
            } => 4,
            Features { circle: true, .. } => 3,
            Features { branch: true, .. } => 2,
            _ => 1,
        }
    }
}
