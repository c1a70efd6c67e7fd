//! What a method does to locks: nodes that take or release one, silent nodes, and the end; edges for jumps and throws.

use crate::instruction::{op, Instruction};
use crate::moves::Moves;
use crate::throw::{met_before, targets, Thrown};
use crate::value::{Name, Values};
use crate::{Method, Obstacle, Throws};
use std::collections::HashMap;

#[derive(Clone, Copy, Debug, PartialEq, Eq, Hash, PartialOrd, Ord)]
pub enum Operation {
    Silent,
    End,
    Enter(Name),
    Exit(Name),
    /// The first name comes to stand for what the second does.
    Move(Name, Name),
}

/// Node 0 is the end: a return, or a throw that nothing catches.
#[derive(Clone, Debug)]
pub struct Automaton {
    pub operations: Vec<Operation>,
    pub successors: Vec<Vec<usize>>,
    /// The instructions that a node stands for.
    pub origins: Vec<Vec<usize>>,
    pub entry: usize,
}

impl Automaton {
    pub fn empty() -> Automaton {
        Automaton {
            operations: vec![Operation::End],
            successors: vec![vec![]],
            origins: vec![vec![]],
            entry: 0,
        }
    }

    pub fn node(&mut self, operation: Operation, origins: Vec<usize>) -> usize {
        self.operations.push(operation);
        self.successors.push(Vec::new());
        self.origins.push(origins);
        self.operations.len() - 1
    }

    pub fn len(&self) -> usize {
        self.operations.len()
    }

    /// It always has its end.
    pub fn is_empty(&self) -> bool {
        false
    }

    pub fn is_silent(&self, n: usize) -> bool {
        self.operations[n] == Operation::Silent
    }

    pub fn has_moves(&self) -> bool {
        self.operations
            .iter()
            .any(|o| matches!(o, Operation::Move(..)))
    }

    /// The names that are locked or moved, in the order of the nodes.
    pub fn names(&self) -> Vec<Name> {
        let mut out = Vec::new();
        for &o in &self.operations {
            let (a, b) = match o {
                Operation::Enter(v) | Operation::Exit(v) => (v, v),
                Operation::Move(to, from) => (to, from),
                _ => continue,
            };
            for v in [a, b] {
                if !out.contains(&v) {
                    out.push(v);
                }
            }
        }
        out
    }

    /// Only what is reached, the end first, the rest in the order of a walk.
    pub fn rebuilt(&self) -> Automaton {
        let mut out = Automaton::empty();
        out.origins[0] = self.origins[0].clone();
        let mut numbers = vec![usize::MAX; self.len()];
        numbers[0] = 0;
        let mut walked = Vec::new();
        let mut todo = vec![self.entry];
        while let Some(n) = todo.pop() {
            if numbers[n] == usize::MAX {
                numbers[n] = out.node(self.operations[n], self.origins[n].clone());
                walked.push(n);
                todo.extend(self.successors[n].iter().rev());
            }
        }
        for n in walked {
            let mut to = Vec::with_capacity(self.successors[n].len());
            for &s in &self.successors[n] {
                if !to.contains(&numbers[s]) {
                    to.push(numbers[s]);
                }
            }
            out.successors[numbers[n]] = to;
        }
        out.entry = numbers[self.entry];
        out
    }

    /// Only one name's operations. Names are independent where nothing is moved, so a method may be judged name by name.
    pub fn of_name(&self, v: Name) -> Automaton {
        let mut out = self.clone();
        for o in &mut out.operations {
            if *o != Operation::End && *o != Operation::Enter(v) && *o != Operation::Exit(v) {
                *o = Operation::Silent;
            }
        }
        out.rebuilt()
    }
}

/// The throws of each instruction that is reached.
pub(crate) fn all_throws(
    method: &Method,
    all: &[Instruction],
    values: &Values,
    throws: &Throws,
) -> Result<Vec<Vec<Thrown>>, Obstacle> {
    let met = met_before(method, all, values, throws)?;
    let of = |k: usize| match &values.before[k] {
        None => Vec::new(),
        Some(places) => {
            let operand = places.under(0).flatten();
            let sure = operand.is_some_and(|v| values.is_made(method, v) || met[k].contains(&v));
            targets(method, &all[k], sure, throws)
        }
    };
    Ok((0..all.len()).map(of).collect())
}

/// The method's automaton. With `moves`, a name that a meeting of ways gives follows the references that come to it.
pub fn automaton(
    method: &Method,
    all: &[Instruction],
    values: &Values,
    throws: &Throws,
    moves: bool,
) -> Result<Automaton, Obstacle> {
    let mut g = Automaton::empty();
    let thrown = all_throws(method, all, values, throws)?;
    let (mut first, mut last) = (HashMap::new(), HashMap::new());
    for (k, i) in all.iter().enumerate() {
        let Some(places) = &values.before[k] else {
            continue;
        };
        // An operand that is no single known reference is a value of its own.
        let operand = || places.under(0).flatten().unwrap_or(Name::Unknown(i.at));
        let operation = match i.op {
            op::MONITORENTER => Operation::Enter(operand()),
            op::MONITOREXIT => Operation::Exit(operand()),
            _ => Operation::Silent,
        };
        let n = g.node(operation, vec![k]);
        last.insert(k, n);
        first.insert(k, n);
        // A throw comes before the effect.
        if operation != Operation::Silent && !thrown[k].is_empty() {
            let before = g.node(Operation::Silent, vec![k]);
            g.successors[before].push(n);
            first.insert(k, before);
        }
    }
    let moves = if moves {
        Moves::of(method, all, values, &thrown, &g.names())?
    } else {
        Moves::none()
    };
    for (k, i) in all.iter().enumerate() {
        let (Some(&from), Some(&done)) = (first.get(&k), last.get(&k)) else {
            continue;
        };
        for &t in &thrown[k] {
            let to = match t {
                Thrown::Uncaught => 0,
                Thrown::To(h) => moves.chain(&mut g, k, &moves.edge(all, k, h, true)?, first[&h]),
            };
            g.successors[from].push(to);
        }
        for t in i.successors() {
            let to = moves.chain(&mut g, k, &moves.edge(all, k, t, false)?, first[&t]);
            g.successors[done].push(to);
        }
        if i.returns() {
            g.successors[done].push(0);
        }
    }
    g.entry = first[&0];
    Ok(g.rebuilt())
}

#[cfg(test)]
pub(crate) mod tests {
    use super::*;
    use crate::instruction::decoded;
    use crate::tests::method;
    use crate::value::values;

    pub fn of(m: &Method, moves: bool) -> Automaton {
        let all = decoded(m).unwrap();
        let v = values(m, &all, &Throws::default()).unwrap();
        automaton(m, &all, &v, &Throws::default(), moves).unwrap()
    }

    #[test]
    fn a_lock_and_its_release() {
        // aload_0; monitorenter; aload_0; monitorexit; return
        let g = of(&method(&[0x2a, 0xc2, 0x2a, 0xc3, 0xb1]), false);
        let this = Name::Argument(0);
        let seen: Vec<_> = g
            .operations
            .iter()
            .filter(|o| **o != Operation::Silent)
            .collect();
        assert_eq!(
            seen,
            [
                &Operation::End,
                &Operation::Enter(this),
                &Operation::Exit(this)
            ]
        );
        assert_eq!(g.of_name(Name::Argument(1)).names(), []);
    }

    #[test]
    fn a_throw_comes_before_the_lock() {
        // aload_1 may be null: a silent node with two ways stands before the lock
        let g = of(&method(&[0x2b, 0xc2, 0x2b, 0xc3, 0xb1]), false);
        let enter = g
            .operations
            .iter()
            .position(|o| matches!(o, Operation::Enter(_)))
            .unwrap();
        let before = (0..g.len())
            .find(|&n| g.successors[n].contains(&enter))
            .unwrap();
        assert!(g.is_silent(before) && g.successors[before].contains(&0));
    }
}
