//! The automaton as a method of the language. Class 0 is main, the locked objects' class and the exception class in one; class 1 is the method, and each locked
//! name is an argument of class 0, in every row a reference of that class. A choice between ways is `push0; if`: the machine takes either.

use crate::automaton::{Automaton, Operation};
use crate::value::Name;
use std::fmt;

mod opcode {
    pub const PUSH0: u8 = 3;
    pub const LOAD: u8 = 4;
    pub const STORE: u8 = 5;
    pub const IF: u8 = 6;
    pub const MONITORENTER: u8 = 7;
    pub const MONITOREXIT: u8 = 8;
    pub const NEW: u8 = 9;
    pub const ATHROW: u8 = 11;
    pub const RETURN: u8 = 12;
}

/// The language's limits.
pub const MOST_NAMES: usize = 16;
pub const MOST_ADDRESSES: usize = 256;

/// What lies on the stack before an instruction: nothing, an integer, or a reference.
#[derive(Clone, Copy, Debug, PartialEq, Eq)]
enum Stack {
    Empty,
    Integer,
    Reference,
}

#[derive(Clone, Copy, Debug)]
struct Row {
    opcode: u8,
    operand: u8,
    /// An address, or for an `if` the node whose address it will be.
    to: usize,
    stack: Stack,
}

/// A method's skeleton, laid out.
#[derive(Debug)]
pub struct Skeleton {
    rows: Vec<Row>,
    /// The node that each row belongs to.
    pub nodes: Vec<usize>,
    /// The locked names, in the order of their variables.
    pub names: Vec<Name>,
}

/// The skeleton is past the language's limits.
#[derive(Clone, Copy, Debug, PartialEq, Eq)]
pub struct TooLarge {
    pub names: usize,
    pub addresses: usize,
}

impl fmt::Display for TooLarge {
    fn fmt(&self, f: &mut fmt::Formatter<'_>) -> fmt::Result {
        write!(
            f,
            "its skeleton has {} locks and {} instructions",
            self.names, self.addresses
        )
    }
}

impl std::error::Error for TooLarge {}

/// What a gate takes: each part holds class 0 and then class 1.
#[derive(Clone, Debug, Default, PartialEq, Eq)]
pub struct Parts {
    pub directory: Vec<u8>,
    pub descriptors: Vec<u8>,
    pub instructions: Vec<u8>,
    pub kinds: Vec<u8>,
    pub depths: Vec<u8>,
}

struct Layout<'a> {
    g: &'a Automaton,
    names: Vec<Name>,
    rows: Vec<Row>,
    nodes: Vec<usize>,
    /// The address of each node that is placed; addresses run from 1.
    placed: Vec<Option<usize>>,
}

impl Layout<'_> {
    fn emit(&mut self, opcode: u8, operand: u8, to: usize, stack: Stack, node: usize) {
        self.rows.push(Row {
            opcode,
            operand,
            to,
            stack,
        });
        self.nodes.push(node);
    }

    fn variable(&self, v: Name) -> u8 {
        self.names
            .iter()
            .position(|&n| n == v)
            .map_or(0, |k| k as u8)
    }

    fn operation(&mut self, node: usize) {
        match self.g.operations[node] {
            Operation::Enter(v) => self.emit(
                opcode::MONITORENTER,
                self.variable(v),
                0,
                Stack::Empty,
                node,
            ),
            Operation::Exit(v) => {
                self.emit(opcode::MONITOREXIT, self.variable(v), 0, Stack::Empty, node)
            }
            Operation::Move(to, from) => {
                self.emit(opcode::LOAD, self.variable(from), 0, Stack::Empty, node);
                self.emit(opcode::STORE, self.variable(to), 0, Stack::Reference, node);
            }
            Operation::Silent | Operation::End => {}
        }
    }

    /// A way that goes on for ever, and that any variables fit.
    fn pad(&mut self, node: usize) {
        let handler = self.rows.len() + 2;
        self.emit(opcode::NEW, 0, handler, Stack::Empty, node);
        self.emit(opcode::ATHROW, 0, handler, Stack::Reference, node);
    }

    /// The node that follows without a jump: one that is not placed yet, the end only if there is no other; or the end again.
    fn following(&self, onward: &[usize]) -> Option<usize> {
        let free = |&&s: &&usize| self.placed[s].is_none();
        let best = onward
            .iter()
            .filter(free)
            .find(|&&s| s != 0)
            .or_else(|| onward.iter().find(free));
        best.or_else(|| onward.iter().find(|&&s| s == 0)).copied()
    }

    /// A node and those that follow it without a jump; the nodes that it jumps to are to do.
    fn place(&mut self, start: usize, todo: &mut Vec<usize>) {
        let mut node = start;
        loop {
            self.placed[node].get_or_insert(self.rows.len() + 1);
            if node == 0 {
                return self.emit(opcode::RETURN, 0, 0, Stack::Empty, node);
            }
            self.operation(node);
            let onward = &self.g.successors[node];
            let following = self.following(onward);
            for &s in onward.iter().filter(|&&s| Some(s) != following) {
                self.emit(opcode::PUSH0, 0, 0, Stack::Empty, node);
                self.emit(opcode::IF, 0, s, Stack::Integer, node);
                todo.push(s);
            }
            match following {
                Some(next) => node = next,
                None => return self.pad(node),
            }
        }
    }
}

/// The automaton laid out, whatever its size.
fn laid(g: &Automaton) -> Skeleton {
    let placed = vec![None; g.len()];
    let mut layout = Layout {
        g,
        names: g.names(),
        rows: Vec::new(),
        nodes: Vec::new(),
        placed,
    };
    let mut todo = vec![g.entry];
    while let Some(node) = todo.pop() {
        if layout.placed[node].is_none() {
            layout.place(node, &mut todo);
        }
    }
    for row in layout.rows.iter_mut().filter(|r| r.opcode == opcode::IF) {
        row.to = layout.placed[row.to].unwrap_or(0);
    }
    Skeleton {
        rows: layout.rows,
        nodes: layout.nodes,
        names: layout.names,
    }
}

impl Skeleton {
    pub fn of(g: &Automaton) -> Result<Skeleton, TooLarge> {
        let out = laid(g);
        if out.names.len() > MOST_NAMES || out.rows.len() > MOST_ADDRESSES {
            return Err(TooLarge {
                names: out.names.len(),
                addresses: out.rows.len(),
            });
        }
        Ok(out)
    }

    pub fn addresses(&self) -> usize {
        self.rows.len()
    }

    pub fn parts(&self) -> Parts {
        let variables = self.names.len();
        let limit = usize::from(self.rows.iter().any(|r| r.stack != Stack::Empty));
        let [high, low] = (self.rows.len() as u16).to_be_bytes();
        let mut out = Parts {
            directory: vec![
                0,
                0,
                0,
                0,
                0,
                1,
                variables as u8,
                variables as u8,
                limit as u8,
                0,
                high,
                low,
            ],
            descriptors: vec![0; variables],
            instructions: vec![opcode::RETURN, 0, 0, 0],
            kinds: Vec::new(),
            depths: vec![0],
        };
        for row in &self.rows {
            let [high, low] = (row.to as u16).to_be_bytes();
            out.instructions
                .extend([row.opcode, row.operand, high, low]);
            out.kinds.extend([3, 0].repeat(variables));
            let top = match row.stack {
                Stack::Empty => [0, 0],
                Stack::Integer => [1, 0],
                Stack::Reference => [3, 0],
            };
            out.kinds.extend(&top[..2 * limit]);
            out.depths.push(u8::from(row.stack != Stack::Empty));
        }
        out
    }
}

#[cfg(test)]
mod tests {
    use super::*;
    use crate::automaton::tests::of;
    use crate::reduction::reduced;
    use crate::tests::method;

    #[test]
    fn a_lock_and_its_release() {
        let g = reduced(&of(&method(&[0x2a, 0xc2, 0x2a, 0xc3, 0xb1]), false));
        let parts = Skeleton::of(&g).unwrap().parts();
        assert_eq!(parts.directory, [0, 0, 0, 0, 0, 1, 1, 1, 0, 0, 0, 3]);
        assert_eq!(parts.descriptors, [0]);
        assert_eq!(
            parts.instructions,
            [12, 0, 0, 0, 7, 0, 0, 0, 8, 0, 0, 0, 12, 0, 0, 0]
        );
        assert_eq!(parts.kinds, [3, 0, 3, 0, 3, 0]);
        assert_eq!(parts.depths, [0, 0, 0, 0]);
    }

    #[test]
    fn a_release_in_one_arm_has_both_ways() {
        // aload_0; monitorenter; iconst_0; ifeq 8; aload_0; monitorexit; return (at 8)
        let g = reduced(&of(
            &method(&[0x2a, 0xc2, 0x03, 0x99, 0, 5, 0x2a, 0xc3, 0xb1]),
            false,
        ));
        let parts = Skeleton::of(&g).unwrap().parts();
        assert_eq!(
            parts.instructions[4..],
            [7, 0, 0, 0, 3, 0, 0, 0, 6, 0, 0, 5, 8, 0, 0, 0, 12, 0, 0, 0]
        );
        assert_eq!(
            parts.kinds,
            [3, 0, 0, 0, 3, 0, 0, 0, 3, 0, 1, 0, 3, 0, 0, 0, 3, 0, 0, 0]
        );
        assert_eq!(parts.depths, [0, 0, 0, 1, 0, 0]);
    }

    #[test]
    fn what_never_ends_is_padded() {
        // aload_0; monitorenter; aload_0; monitorexit; goto 0
        let g = reduced(&of(
            &method(&[0x2a, 0xc2, 0x2a, 0xc3, 0xa7, 0xff, 0xfc]),
            false,
        ));
        let parts = Skeleton::of(&g).unwrap().parts();
        assert_eq!(
            parts.instructions[4..],
            [7, 0, 0, 0, 8, 0, 0, 0, 3, 0, 0, 0, 6, 0, 0, 1, 9, 0, 0, 6, 11, 0, 0, 6]
        );
        assert_eq!(parts.depths, [0, 0, 0, 0, 1, 0, 1]);
    }
}
