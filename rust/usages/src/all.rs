//! All usages of a few nodes.

use crate::usage::Usage;

/// All usages of up to so many nodes, smaller ones first; `0`, a prefix and a
/// sign are a node each.
pub fn up_to(nodes: usize) -> Vec<Usage> {
    let mut sizes: Vec<Vec<Usage>> = vec![vec![]];
    for size in 1..=nodes {
        sizes.push(of_size(size, &sizes));
    }
    sizes.concat()
}

/// All of this size; `smaller` has those of each smaller one.
fn of_size(size: usize, smaller: &[Vec<Usage>]) -> Vec<Usage> {
    if size == 1 {
        return vec![Usage::Zero];
    }
    let mut all = vec![];
    for u in &smaller[size - 1] {
        all.extend([u.clone().lock(), u.clone().unlock()]);
    }
    for left in 1..size - 1 {
        for u in &smaller[left] {
            for v in &smaller[size - 1 - left] {
                all.push(u.clone().parallel(v.clone()));
                all.push(u.clone().choice(v.clone()));
            }
        }
    }
    all
}
