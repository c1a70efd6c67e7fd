//! The second way to a usage's numbers: all that its steps reach.
//!
//! A state is a usage and an integer. A step does one prefix, on either side
//! of `*` and not under another prefix, or replaces one `&` by one of its
//! sides, which leaves the integer. Finished is a usage of `0` and `*` only.

use crate::usage::{Numbers, Usage};
use std::collections::HashSet;

type State = (Usage, i32);

/// Min and Fin, and whether the usage is reliable, by the steps alone. There
/// may be many states: this is for small usages.
pub fn by_steps(usage: &Usage) -> (Numbers, bool) {
    let states = reachable((usage.clone(), 0));
    let counts = states.iter().map(|&(_, count)| count);
    let finished = states.iter().filter(|(usage, _)| is_finished(usage));
    let numbers = Numbers {
        min: counts.min().expect("it begins somewhere"),
        fin: finished
            .map(|&(_, count)| count)
            .max()
            .expect("every usage can be finished"),
    };
    (numbers, states.iter().all(is_kept))
}

/// What the paper asks of every state of a reliable usage: nothing is held at
/// the end, and a lock that can be given back is held.
fn is_kept((usage, count): &State) -> bool {
    (!is_finished(usage) || *count == 0) && (!may_unlock(usage) || *count >= 1)
}

fn is_finished(usage: &Usage) -> bool {
    match usage {
        Usage::Zero => true,
        Usage::Parallel(u, v) => is_finished(u) && is_finished(v),
        _ => false,
    }
}

/// Whether an unlock is one of the next steps.
fn may_unlock(usage: &Usage) -> bool {
    match usage {
        Usage::Unlock(_) => true,
        Usage::Parallel(u, v) => may_unlock(u) || may_unlock(v),
        _ => false,
    }
}

fn reachable(first: State) -> HashSet<State> {
    let mut found = HashSet::from([first.clone()]);
    let mut open = vec![first];
    while let Some((usage, count)) = open.pop() {
        for (next, change) in steps(&usage) {
            let state = (next, count + change);
            if found.insert(state.clone()) {
                open.push(state);
            }
        }
    }
    found
}

/// Each usage that one step leaves, and what it adds to the integer.
fn steps(usage: &Usage) -> Vec<(Usage, i32)> {
    match usage {
        Usage::Zero => vec![],
        Usage::Lock(u) => vec![(Usage::clone(u), 1)],
        Usage::Unlock(u) => vec![(Usage::clone(u), -1)],
        Usage::Choice(u, v) => vec![(Usage::clone(u), 0), (Usage::clone(v), 0)],
        Usage::Parallel(u, v) => {
            let left = steps(u).into_iter();
            let right = steps(v).into_iter();
            let left = left.map(|(next, change)| (next.parallel(Usage::clone(v)), change));
            let right = right.map(|(next, change)| (Usage::clone(u).parallel(next), change));
            left.chain(right).collect()
        }
    }
}
