//! A shortest faulty way through an automaton, and where it turns wrong.

use crate::automaton::{Automaton, Operation};
use crate::value::Name;
use std::collections::{BTreeMap, HashMap, HashSet};

#[derive(Clone, Copy, Debug, PartialEq, Eq)]
pub enum Fault {
    /// A lock is still held at the end, or nothing names it any more.
    Kept,
    /// A lock is released that is not held.
    NotHeld,
    /// A lock is taken again and again.
    Growing,
}

/// A faulty way.
#[derive(Clone, Debug)]
pub struct Witness {
    pub fault: Fault,
    pub name: Name,
    /// The nodes from the start on.
    pub way: Vec<usize>,
    /// The node that took the lock last, of those on the way.
    pub taken: Option<usize>,
    /// The node that released it last, before the way's last node.
    pub released: Option<usize>,
    /// The first step after which no way is right any more: its two nodes.
    pub turn: Option<(Option<usize>, usize)>,
}

/// A count above this is taken to grow without end.
const HIGHEST: u8 = 8;

/// More states than this are not searched.
const MOST_STATES: usize = 200_000;

/// The count after a node, or the fault there.
fn counted(o: Operation, v: Name, count: u8) -> Result<u8, Fault> {
    match o {
        Operation::Enter(x) if x == v && count == HIGHEST => Err(Fault::Growing),
        Operation::Enter(x) if x == v => Ok(count + 1),
        Operation::Exit(x) if x == v => count.checked_sub(1).ok_or(Fault::NotHeld),
        Operation::End if count > 0 => Err(Fault::Kept),
        _ => Ok(count),
    }
}

fn way_to<S: Copy + Eq + std::hash::Hash>(seen: &HashMap<S, Option<S>>, last: S) -> Vec<S> {
    let mut way = vec![last];
    while let Some(&Some(before)) = seen.get(way.last().unwrap_or(&last)) {
        way.push(before);
    }
    way.reverse();
    way
}

/// A shortest faulty way of one name.
fn shortest(g: &Automaton, v: Name) -> Option<(Fault, Vec<usize>)> {
    let start = (g.entry, 0);
    let mut seen: HashMap<(usize, u8), Option<(usize, u8)>> = [(start, None)].into();
    let mut queue = vec![start];
    let mut next = 0;
    while next < queue.len() {
        let (n, count) = queue[next];
        next += 1;
        match counted(g.operations[n], v, count) {
            Err(fault) => {
                return Some((
                    fault,
                    way_to(&seen, (n, count))
                        .into_iter()
                        .map(|(n, _)| n)
                        .collect(),
                ))
            }
            Ok(after) => {
                for &s in &g.successors[n] {
                    if let std::collections::hash_map::Entry::Vacant(free) = seen.entry((s, after))
                    {
                        free.insert(Some((n, count)));
                        queue.push((s, after));
                    }
                }
            }
        }
    }
    None
}

/// The states, node and count before it, from which some way ends with count 0 and never goes below.
fn rights(g: &Automaton, v: Name) -> HashSet<(usize, u8)> {
    let mut before = vec![Vec::new(); g.len()];
    for n in 0..g.len() {
        for &s in &g.successors[n] {
            before[s].push(n);
        }
    }
    let mut good: HashSet<(usize, u8)> = [(0, 0)].into();
    let mut todo: Vec<(usize, u8)> = vec![(0, 0)];
    while let Some((s, count)) = todo.pop() {
        for &n in &before[s] {
            let earlier = match g.operations[n] {
                Operation::Enter(x) if x == v => count.checked_sub(1),
                Operation::Exit(x) if x == v => Some(count + 1).filter(|&c| c <= HIGHEST + 1),
                _ => Some(count),
            };
            if let Some(state) = earlier.map(|c| (n, c)).filter(|s| !good.contains(s)) {
                good.insert(state);
                todo.push(state);
            }
        }
    }
    good
}

/// Where a way of one name takes and releases it, and where it turns wrong.
fn told(g: &Automaton, fault: Fault, name: Name, way: Vec<usize>) -> Witness {
    let good = rights(g, name);
    let mut out = Witness {
        fault,
        name,
        way,
        taken: None,
        released: None,
        turn: None,
    };
    let (mut count, mut before) = (0, None);
    for (k, &n) in out.way.iter().enumerate() {
        if out.turn.is_none() && !good.contains(&(n, count)) {
            out.turn = Some((before, n));
        }
        match g.operations[n] {
            Operation::Enter(x) if x == name => out.taken = Some(n),
            Operation::Exit(x) if x == name && k + 1 < out.way.len() => out.released = Some(n),
            _ => {}
        }
        count = counted(g.operations[n], name, count).unwrap_or(count);
        before = Some(n);
    }
    out
}

/// A shortest faulty way, over all names; none where the counts come out right along every way.
pub fn witness(g: &Automaton) -> Option<Witness> {
    if g.has_moves() {
        return moved(g);
    }
    let all = g
        .names()
        .into_iter()
        .filter_map(|v| shortest(g, v).map(|(fault, way)| (fault, v, way)));
    let (fault, name, way) = all.min_by_key(|(_, _, way)| way.len())?;
    Some(told(g, fault, name, way))
}

/// Which object each name stands for, and how often each is held. Objects are numbered by the first name that stands for them.
#[derive(Clone, Debug, PartialEq, Eq, Hash)]
struct Holding {
    objects: Vec<usize>,
    counts: Vec<u8>,
}

impl Holding {
    /// The state after a node, or the fault there with the name at fault.
    fn after(&self, o: Operation, names: &[Name]) -> Result<Holding, (Fault, Name)> {
        let place = |v: Name| names.iter().position(|&n| n == v).unwrap_or(0);
        let named =
            |object: usize| names[self.objects.iter().position(|&x| x == object).unwrap_or(0)];
        let mut counts: BTreeMap<usize, u8> = self.counts.iter().copied().enumerate().collect();
        let mut objects = self.objects.clone();
        let fresh = counts.len();
        let changed = match o {
            Operation::End => match self.counts.iter().position(|&c| c > 0) {
                Some(x) => return Err((Fault::Kept, named(x))),
                None => None,
            },
            Operation::Enter(v) | Operation::Exit(v) => {
                let x = objects[place(v)];
                let count = counted(o, v, self.counts[x]).map_err(|fault| (fault, v))?;
                counts.insert(x, count);
                Some(v)
            }
            Operation::Move(to, from) => {
                objects[place(to)] = if from == Name::Fresh {
                    fresh
                } else {
                    objects[place(from)]
                };
                counts.entry(fresh).or_insert(0);
                Some(to)
            }
            Operation::Silent => None,
        };
        let mut numbers: HashMap<usize, usize> = HashMap::new();
        let mut out = Holding {
            objects: Vec::new(),
            counts: Vec::new(),
        };
        for x in &objects {
            let next = numbers.len();
            let n = *numbers.entry(*x).or_insert_with(|| {
                out.counts.push(counts[x]);
                next
            });
            out.objects.push(n);
        }
        match counts
            .iter()
            .find(|(x, &c)| c > 0 && !numbers.contains_key(x))
        {
            Some(_) => Err((Fault::Kept, changed.unwrap_or(Name::Fresh))),
            None => Ok(out),
        }
    }
}

/// As [`witness`], where names may come to stand for one object.
fn moved(g: &Automaton) -> Option<Witness> {
    let names = g.names();
    let start = Holding {
        objects: (0..names.len()).collect(),
        counts: vec![0; names.len()],
    };
    let mut states = vec![(g.entry, start, None)];
    let mut seen: HashSet<(usize, Holding)> =
        states.iter().map(|(n, h, _)| (*n, h.clone())).collect();
    let mut next = 0;
    while next < states.len() && next < MOST_STATES {
        let (n, holding) = (states[next].0, states[next].1.clone());
        match holding.after(g.operations[n], &names) {
            Err((fault, name)) => {
                let mut way = Vec::new();
                let mut at = Some(next);
                while let Some(k) = at {
                    way.push(states[k].0);
                    at = states[k].2;
                }
                way.reverse();
                let taken = way
                    .iter()
                    .rev()
                    .copied()
                    .find(|&n| matches!(g.operations[n], Operation::Enter(_)));
                return Some(Witness {
                    fault,
                    name,
                    way,
                    taken,
                    released: None,
                    turn: None,
                });
            }
            Ok(after) => {
                for &s in &g.successors[n] {
                    if seen.insert((s, after.clone())) {
                        states.push((s, after.clone(), Some(next)));
                    }
                }
            }
        }
        next += 1;
    }
    None
}

#[cfg(test)]
mod tests {
    use super::*;
    use crate::automaton::tests::of;
    use crate::tests::method;

    #[test]
    fn a_balanced_method_has_none() {
        assert!(witness(&of(&method(&[0x2a, 0xc2, 0x2a, 0xc3, 0xb1]), false)).is_none());
    }

    #[test]
    fn a_release_in_one_arm_is_kept_in_the_other() {
        let g = of(
            &method(&[0x2a, 0xc2, 0x03, 0x99, 0, 5, 0x2a, 0xc3, 0xb1]),
            false,
        );
        let w = witness(&g).unwrap();
        assert_eq!((w.fault, w.name), (Fault::Kept, Name::Argument(0)));
        let offsets: Vec<usize> = w
            .way
            .iter()
            .flat_map(|&n| g.origins[n].iter().copied())
            .collect();
        // instructions: aload_0, monitorenter, iconst_0, ifeq, return
        assert_eq!(offsets, [0, 1, 2, 3, 6]);
        let (from, to) = w.turn.unwrap();
        assert_eq!(g.origins[from.unwrap()], [3]);
        assert_eq!(g.origins[to], [6]);
    }

    #[test]
    fn a_release_twice_and_a_lock_in_a_loop() {
        let twice = of(&method(&[0x2a, 0xc2, 0x2a, 0xc3, 0x2a, 0xc3, 0xb1]), false);
        assert_eq!(witness(&twice).unwrap().fault, Fault::NotHeld);
        let again = of(&method(&[0x2a, 0xc2, 0xa7, 0xff, 0xfe]), false);
        assert_eq!(witness(&again).unwrap().fault, Fault::Growing);
    }

    #[test]
    fn through_a_meeting() {
        // the code of moves.rs: on one way what is released is not what is held
        let code = [
            0x2a, 0xc2, 0x03, 0x99, 0, 7, 0x2a, 0xa7, 0, 4, 0x2b, 0x4d, 0x2c, 0xc3, 0xb1,
        ];
        let w = witness(&of(&method(&code), true)).unwrap();
        assert_eq!(w.fault, Fault::NotHeld);
    }
}
