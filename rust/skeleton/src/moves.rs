//! Where ways meet, a name of the meeting's own may stand for a reference that is held. Moves on the edges into the meeting say which.
//!
//! Only a meeting that is locked or released (or brings one that is), and to which something comes that is itself locked or released somewhere, needs moves.

use crate::automaton::{Automaton, Operation};
use crate::instruction::Instruction;
use crate::throw::Thrown;
use crate::value::{Name, Place, Places, Values};
use crate::{Method, Obstacle};
use std::collections::{BTreeMap, BTreeSet, HashMap};

/// From an instruction to another, by a throw or not.
type Edge = (usize, usize, bool);

#[derive(Debug, Default)]
pub struct Moves {
    /// On each edge: the meetings' names at its end, and what the edge brings to each.
    brought: HashMap<Edge, Vec<(Name, Place)>>,
    joins: BTreeSet<Name>,
    sources: BTreeSet<Name>,
}

fn is_join(x: Name) -> bool {
    matches!(x, Name::Join(..))
}

/// The meetings' names before an instruction, and what an edge brings to each.
fn brought(at: u32, here: &Places, there: &Places) -> Vec<(Name, Place)> {
    let pairs = |here: &[Place], there: &[Place]| {
        let own = |x: &Name| matches!(*x, Name::Join(from, _) if from == at);
        let both = there.iter().zip(here).map(|(x, &y)| (*x, y));
        both.filter_map(|(x, y)| x.filter(own).map(|x| (x, y)))
            .collect::<Vec<_>>()
    };
    let mut out = pairs(&here.variables, &there.variables);
    out.extend(pairs(&here.stack, &there.stack));
    out
}

impl Moves {
    pub fn none() -> Moves {
        Moves::default()
    }

    pub fn of(
        method: &Method,
        all: &[Instruction],
        values: &Values,
        thrown: &[Vec<Thrown>],
        locked: &[Name],
    ) -> Result<Moves, Obstacle> {
        let mut out = Moves::default();
        let mut operands: BTreeMap<Name, BTreeSet<Place>> = BTreeMap::new();
        let mut classes = values.classes.clone();
        for (k, i) in all.iter().enumerate() {
            let Some(before) = &values.before[k] else {
                continue;
            };
            let mut ways = Vec::new();
            for &t in &thrown[k] {
                if let Thrown::To(h) = t {
                    ways.push((h, true, before.caught(all[h].at)));
                }
            }
            let after = before.clone().after(method, i, &mut classes)?;
            ways.extend(
                i.successors()
                    .into_iter()
                    .map(|t| (t, false, after.clone())),
            );
            for (to, throw, here) in ways {
                let Some(there) = &values.before[to] else {
                    continue;
                };
                let row = brought(all[to].at, &here, there);
                for &(join, x) in &row {
                    operands.entry(join).or_default().insert(x);
                }
                out.brought.insert((k, to, throw), row);
            }
        }
        out.choose(&operands, locked);
        Ok(out)
    }

    fn choose(&mut self, operands: &BTreeMap<Name, BTreeSet<Place>>, locked: &[Name]) {
        let mut needed = BTreeSet::new();
        let mut todo: Vec<Name> = locked.iter().copied().filter(|&v| is_join(v)).collect();
        while let Some(p) = todo.pop() {
            if needed.insert(p) {
                todo.extend(
                    operands
                        .get(&p)
                        .into_iter()
                        .flatten()
                        .flatten()
                        .copied()
                        .filter(|&x| is_join(x)),
                );
            }
        }
        let mut carries: BTreeSet<Name> = locked.iter().copied().collect();
        let holds = |xs: &BTreeSet<Place>, p: Name, carries: &BTreeSet<Name>| {
            xs.iter().flatten().any(|x| *x != p && carries.contains(x))
        };
        loop {
            let more: Vec<Name> = operands
                .iter()
                .filter(|(p, xs)| !carries.contains(p) && holds(xs, **p, &carries))
                .map(|(p, _)| *p)
                .collect();
            if more.is_empty() {
                break;
            }
            carries.extend(more);
        }
        for p in needed {
            let Some(xs) = operands.get(&p).filter(|xs| holds(xs, p, &carries)) else {
                continue;
            };
            self.joins.insert(p);
            self.sources
                .extend(xs.iter().flatten().filter(|x| carries.contains(x)));
        }
    }

    /// The moves on an edge, in an order in which no source is overwritten first.
    pub fn edge(
        &self,
        all: &[Instruction],
        from: usize,
        to: usize,
        throw: bool,
    ) -> Result<Vec<(Name, Name)>, Obstacle> {
        let mut out = Vec::new();
        let made = Name::Made(all[from].at);
        if !throw && self.sources.contains(&made) {
            out.push((made, Name::Fresh));
        }
        let known = |x: Place| {
            x.filter(|x| self.sources.contains(x))
                .unwrap_or(Name::Fresh)
        };
        let row = self.brought.get(&(from, to, throw)).map_or(&[][..], |r| r);
        let mut row: Vec<(Name, Name)> = row
            .iter()
            .filter(|(p, x)| self.joins.contains(p) && *x != Some(*p))
            .map(|&(p, x)| (p, known(x)))
            .collect();
        while !row.is_empty() {
            let free = |k: &usize| {
                row.iter()
                    .enumerate()
                    .all(|(j, (_, x))| j == *k || *x != row[*k].0)
            };
            let Some(k) = (0..row.len()).find(free) else {
                return Err(Obstacle::new(all[to].at, "references change places"));
            };
            out.push(row.remove(k));
        }
        Ok(out)
    }

    /// Nodes for the moves, the last of which goes on to `to`; the first is given back.
    pub fn chain(
        &self,
        g: &mut Automaton,
        from: usize,
        moves: &[(Name, Name)],
        to: usize,
    ) -> usize {
        moves.iter().rev().fold(to, |to, &(target, source)| {
            let n = g.node(Operation::Move(target, source), vec![from]);
            g.successors[n].push(to);
            n
        })
    }
}

#[cfg(test)]
mod tests {
    use crate::automaton::{tests::of, Operation};
    use crate::tests::method;
    use crate::value::Name;

    #[test]
    fn a_held_reference_comes_to_a_meeting() {
        // aload_0; monitorenter; iconst_0; ifeq 10; aload_0; goto 11; aload_1 (at 10); astore_2; aload_2; monitorexit; return
        let code = [
            0x2a, 0xc2, 0x03, 0x99, 0, 7, 0x2a, 0xa7, 0, 4, 0x2b, 0x4d, 0x2c, 0xc3, 0xb1,
        ];
        let m = method(&code);
        assert!(!of(&m, false).has_moves());
        let moves: Vec<_> = of(&m, true)
            .operations
            .iter()
            .filter_map(|o| {
                if let Operation::Move(_, from) = o {
                    Some(*from)
                } else {
                    None
                }
            })
            .collect();
        assert_eq!(moves, [Name::Argument(0), Name::Fresh]);
    }

    #[test]
    fn a_method_without_meetings_has_no_moves() {
        assert!(!of(&method(&[0x2a, 0xc2, 0x2a, 0xc3, 0xb1]), true).has_moves());
    }
}
