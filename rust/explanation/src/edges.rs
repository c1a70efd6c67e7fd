//! One way on from an address, and what is compared along it.

use crate::asked::Asked;
use crate::comparison::{Change, Comparison, Short};
use crate::words::{sentence, some, Place};
use listing::{Entry, Pair, Row};

/// What an instruction leaves, and the row that is reached.
#[derive(Clone, Debug)]
pub struct Edge {
    pub to: u16,
    pub claimed: Row,
    variables: Vec<Entry>,
    /// Top first.
    stack: Vec<Entry>,
    /// What the instruction does with one of the variables.
    change: Option<(usize, Change)>,
}

impl Edge {
    pub fn new(to: u16, claimed: Row, variables: &[Entry], stack: &[Entry]) -> Edge {
        Edge {
            to,
            claimed,
            variables: variables.to_vec(),
            stack: stack.to_vec(),
            change: None,
        }
    }

    /// With a change of variable `v` on the way.
    pub fn changing(self, v: usize, change: Change) -> Edge {
        Edge {
            change: Some((v, change)),
            ..self
        }
    }

    /// The depths left and claimed, where they differ.
    pub fn depth(&self) -> Option<Asked> {
        let (left, claimed) = (self.stack.len(), self.claimed.stack().len());
        let to = self.to;
        (left != claimed).then_some(Asked::Depth { to, left, claimed })
    }

    /// The first entry that does not fit its place: the variables in their
    /// order, then the stack from the top.
    pub fn misfit(&self) -> Option<Misfit> {
        self.comparisons().find_map(|comparison| {
            Some(Misfit {
                to: self.to,
                comparison,
                short: comparison.short()?,
            })
        })
    }

    fn comparisons(&self) -> impl Iterator<Item = Comparison> + '_ {
        let variables = self.variables.iter().zip(&self.claimed.variables);
        let variables = variables.enumerate().map(|(v, (&came, &claimed))| {
            let change = match self.change {
                Some((changed, change)) if changed == v => change,
                _ => Change::None,
            };
            Comparison {
                place: Place::Variable(v),
                came,
                change,
                claimed,
            }
        });
        // The new top of a shared reference is compared at its variable.
        let shared = matches!(self.change, Some((_, Change::Shared(_))));
        let stack = self.stack.iter().zip(self.claimed.stack());
        let stack = stack.enumerate().skip(usize::from(shared));
        let stack = stack.map(|(i, (&came, &claimed))| Comparison {
            place: Place::Stack(i),
            came,
            change: Change::None,
            claimed,
        });
        variables.chain(stack)
    }
}

/// An entry that does not fit what the row of an address claims.
#[derive(Clone, Copy, Debug)]
pub struct Misfit {
    pub to: u16,
    comparison: Comparison,
    pub short: Short,
}

impl Misfit {
    /// What is wrong, and what that means for a lock.
    pub fn told(&self, from: u16) -> Vec<String> {
        let met = self.met();
        vec![format!("{met}: {}.", self.short), self.meaning(from)]
    }

    /// What came, and what is claimed of it.
    fn met(&self) -> String {
        let to = self.to;
        let Comparison {
            place,
            came,
            change,
            claimed,
        } = self.comparison;
        let place = sentence(&place.to_string());
        let after = match came {
            Entry::Ref { pair, .. } => change.moved(pair).to_string(),
            Entry::Nullable { .. } => change.moved(Pair::ZERO).to_string(),
            other => other.to_string(),
        };
        match change {
            Change::None => format!("{place} comes as {came}, and row {to} claims {claimed}"),
            Change::Entered => format!(
                "{place} is {came}, with the lock taken {after}, and row {to} claims {claimed}"
            ),
            Change::Exited => format!(
                "{place} is {came}, with the lock given back {after}, and row {to} claims {claimed}"
            ),
            Change::Shared(top) => {
                format!("{place} is {came}, and row {to} claims {claimed} there and {top} on top")
            }
        }
    }

    fn meaning(&self, from: u16) -> String {
        let to = self.to;
        let releases = some(self.short.missing(), "release");
        match self.short {
            Short::End { .. } => format!("The path {from} to {to} leaves {releases} owing."),
            Short::Dip { .. } => {
                format!("The path {from} to {to} would allow {releases} too many.")
            }
            Short::Kind {
                claimed: Entry::Int,
                ..
            } => {
                format!("Row {to} would use an integer that may not be there.")
            }
            Short::Kind {
                came: Entry::Nullable { class },
                claimed: Entry::Ref { class: own, .. },
            } if own == class => format!("Row {to} would use an object where null may be."),
            Short::Kind { .. } => format!("Row {to} would use a lock that may not be there."),
        }
    }
}
