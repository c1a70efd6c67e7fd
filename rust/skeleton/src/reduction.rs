//! The automaton made small. The lock operations along its ways from the start, and along those that end, stay the same.

use crate::automaton::{Automaton, Operation};
use std::collections::{BTreeMap, BTreeSet, HashMap};

/// Strongly connected parts; a part's number is above those of the parts it reaches.
fn parts(n: usize, onward: impl Fn(usize) -> Vec<usize>) -> (Vec<usize>, usize) {
    const NONE: usize = usize::MAX;
    let (mut index, mut low, mut part) = (vec![NONE; n], vec![NONE; n], vec![NONE; n]);
    let (mut stack, mut count, mut made) = (Vec::new(), 0, 0);
    for root in 0..n {
        if index[root] != NONE {
            continue;
        }
        let mut calls = vec![(root, onward(root), 0)];
        (index[root], low[root]) = (count, count);
        count += 1;
        stack.push(root);
        while let Some((v, to, next)) = calls.last_mut() {
            let v = *v;
            if let Some(&w) = to.get(*next) {
                *next += 1;
                if index[w] == NONE {
                    (index[w], low[w]) = (count, count);
                    count += 1;
                    stack.push(w);
                    calls.push((w, onward(w), 0));
                } else if part[w] == NONE {
                    low[v] = low[v].min(index[w]);
                }
                continue;
            }
            calls.pop();
            if let Some((above, ..)) = calls.last() {
                low[*above] = low[*above].min(low[v]);
            }
            if low[v] == index[v] {
                while let Some(w) = stack.pop() {
                    part[w] = made;
                    if w == v {
                        break;
                    }
                }
                made += 1;
            }
        }
    }
    (part, made)
}

/// Silent parts that are strongly connected become one node; silent nodes with one successor vanish, and so do those that never get anywhere, with the edges to them.
fn contracted(g: &Automaton) -> Option<Automaton> {
    let n = g.len();
    let silent = |v: usize| g.is_silent(v);
    let within = |v: usize| {
        if silent(v) {
            g.successors[v]
                .iter()
                .copied()
                .filter(|&w| silent(w))
                .collect()
        } else {
            Vec::new()
        }
    };
    let (part, count) = parts(n, within);
    let mut members = vec![Vec::new(); count];
    for v in 0..n {
        members[part[v]].push(v);
    }
    // What a part is now: a node, or nothing.
    let mut stands: Vec<Option<usize>> = vec![None; count];
    let mut out = g.clone();
    for c in 0..count {
        let head = members[c][0];
        if !silent(head) {
            stands[c] = Some(head);
            continue;
        }
        let mut onward = Vec::new();
        for &w in members[c]
            .iter()
            .flat_map(|&v| &g.successors[v])
            .filter(|&&w| part[w] != c)
        {
            let to = if silent(w) { stands[part[w]] } else { Some(w) };
            if let Some(t) = to.filter(|t| !onward.contains(t)) {
                onward.push(t);
            }
        }
        stands[c] = match onward.len() {
            0 => None,
            1 => Some(onward[0]),
            _ => {
                out.origins[head] = members[c]
                    .iter()
                    .flat_map(|&v| g.origins[v].iter().copied())
                    .collect();
                out.successors[head] = onward;
                Some(head)
            }
        };
    }
    let stand = |w: usize| if silent(w) { stands[part[w]] } else { Some(w) };
    for v in (0..n).filter(|&v| !silent(v)) {
        out.successors[v] = g.successors[v].iter().filter_map(|&w| stand(w)).collect();
    }
    out.entry = stand(g.entry)?;
    Some(out.rebuilt())
}

/// The nodes with an operation that silent nodes lead to, for every node. Silent nodes go round in no circle.
fn reached(g: &Automaton) -> Vec<BTreeSet<usize>> {
    let mut memo: Vec<Option<BTreeSet<usize>>> = vec![None; g.len()];
    for root in 0..g.len() {
        let mut todo = vec![root];
        while let Some(&x) = todo.last() {
            if memo[x].is_some() {
                todo.pop();
            } else if !g.is_silent(x) {
                memo[x] = Some([x].into());
            } else {
                let missing: Vec<usize> = g.successors[x]
                    .iter()
                    .copied()
                    .filter(|&w| memo[w].is_none())
                    .collect();
                if missing.is_empty() {
                    let all = g.successors[x]
                        .iter()
                        .flat_map(|&w| memo[w].iter().flatten().copied())
                        .collect();
                    memo[x] = Some(all);
                }
                todo.extend(missing);
            }
        }
    }
    memo.into_iter().map(Option::unwrap_or_default).collect()
}

/// Only nodes with an operation, the start and the end. Nodes with one operation and the same successors are one, until nothing more falls together; a set of
/// two or more successors that several nodes have is a silent node of its own.
fn closed(g: &Automaton) -> Automaton {
    let reach = reached(g);
    let order: Vec<usize> = (0..g.len())
        .filter(|&v| !g.is_silent(v) || v == g.entry)
        .collect();
    let onward: HashMap<usize, BTreeSet<usize>> = order
        .iter()
        .map(|&v| {
            (
                v,
                g.successors[v]
                    .iter()
                    .flat_map(|&w| reach[w].iter().copied())
                    .collect(),
            )
        })
        .collect();
    let block = blocks(g, &order, &onward);
    let mut out = Automaton::empty();
    let mut numbers: HashMap<usize, usize> = [(block[&0], 0)].into();
    let mut chosen = vec![0];
    for &v in &order {
        let n = *numbers.entry(block[&v]).or_insert_with(|| {
            chosen.push(v);
            out.node(g.operations[v], Vec::new())
        });
        out.origins[n].extend(&g.origins[v]);
    }
    let to =
        |v: usize| -> BTreeSet<usize> { onward[&v].iter().map(|w| numbers[&block[w]]).collect() };
    let mut uses: BTreeMap<BTreeSet<usize>, usize> = BTreeMap::new();
    for &v in &chosen {
        *uses.entry(to(v)).or_default() += 1;
    }
    let mut hubs: BTreeMap<BTreeSet<usize>, usize> = BTreeMap::new();
    for &v in &chosen {
        let set = to(v);
        let n = numbers[&block[&v]];
        if set.len() < 2 || uses[&set] < 2 {
            out.successors[n] = set.into_iter().collect();
            continue;
        }
        let hub = *hubs.entry(set.clone()).or_insert_with(|| {
            let hub = out.node(Operation::Silent, Vec::new());
            out.successors[hub] = set.into_iter().collect();
            hub
        });
        out.successors[n] = vec![hub];
    }
    out.entry = numbers[&block[&g.entry]];
    out.rebuilt()
}

/// The coarsest parting in which nodes of one block have one operation and successors in the same blocks.
fn blocks(
    g: &Automaton,
    order: &[usize],
    onward: &HashMap<usize, BTreeSet<usize>>,
) -> HashMap<usize, usize> {
    let mut first: HashMap<Operation, usize> = HashMap::new();
    let mut block: HashMap<usize, usize> = HashMap::new();
    for &v in order {
        let next = first.len();
        block.insert(v, *first.entry(g.operations[v]).or_insert(next));
    }
    let mut kinds = first.len();
    loop {
        let mut names: HashMap<(usize, BTreeSet<usize>), usize> = HashMap::new();
        let mut finer = HashMap::new();
        for &v in order {
            let key = (block[&v], onward[&v].iter().map(|w| block[w]).collect());
            let next = names.len();
            finer.insert(v, *names.entry(key).or_insert(next));
        }
        if names.len() == kinds {
            return finer;
        }
        kinds = names.len();
        block = finer;
    }
}

/// The automaton made small. One that does nothing for ever is the end alone.
pub fn reduced(g: &Automaton) -> Automaton {
    contracted(g).map_or_else(Automaton::empty, |small| closed(&small))
}

#[cfg(test)]
mod tests {
    use super::*;
    use crate::automaton::tests::of;
    use crate::tests::method;
    use crate::value::Name;

    /// The sequences of at most `most` lock operations, and whether each is all that a way does until it ends, told by a walk over everything.
    fn traces(g: &Automaton, most: usize) -> BTreeSet<(Vec<Operation>, bool)> {
        let (mut out, mut seen) = (BTreeSet::new(), BTreeSet::new());
        let mut todo = vec![(g.entry, Vec::new())];
        while let Some((n, mut so_far)) = todo.pop() {
            if !seen.insert((n, so_far.clone())) {
                continue;
            }
            match g.operations[n] {
                Operation::End => {
                    out.insert((so_far, true));
                    continue;
                }
                Operation::Silent => {}
                o => {
                    so_far.push(o);
                    out.insert((so_far.clone(), false));
                }
            }
            if so_far.len() < most {
                todo.extend(g.successors[n].iter().map(|&w| (w, so_far.clone())));
            }
        }
        out
    }

    #[test]
    fn a_straight_line_keeps_its_locks_alone() {
        let g = of(&method(&[0x2a, 0xc2, 0, 0, 0, 0x2a, 0xc3, 0xb1]), false);
        let small = reduced(&g);
        assert_eq!(small.len(), 3);
        assert_eq!(traces(&small, 5), traces(&g, 5));
    }

    #[test]
    fn loops_without_locks_vanish() {
        // 0: iconst_0; 1: ifeq 0; 4: return
        let g = of(&method(&[0x03, 0x99, 0xff, 0xff, 0xb1]), false);
        assert_eq!(reduced(&g).entry, 0);
        // 0: goto 0
        assert_eq!(reduced(&of(&method(&[0xa7, 0, 0]), false)).len(), 1);
    }

    #[test]
    fn random_automata_keep_their_traces() {
        let mut seed = 1u64;
        let mut draw = move |n: usize| {
            seed = seed
                .wrapping_mul(6_364_136_223_846_793_005)
                .wrapping_add(1_442_695_040_888_963_407);
            (seed >> 33) as usize % n
        };
        for _ in 0..300 {
            let mut g = Automaton::empty();
            let n = 3 + draw(9);
            for _ in 1..n {
                let v = Name::Argument(draw(2) as u16);
                let o = [
                    Operation::Silent,
                    Operation::Silent,
                    Operation::Enter(v),
                    Operation::Exit(v),
                ][draw(4)];
                g.node(o, Vec::new());
            }
            for v in 1..n {
                g.successors[v] = (0..1 + draw(3)).map(|_| draw(n)).collect();
            }
            g.entry = 1 + draw(n - 1);
            let before = traces(&g, 4);
            if !before.is_empty() {
                assert_eq!(traces(&reduced(&g), 4), before);
            }
        }
    }
}
