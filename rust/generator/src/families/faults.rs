//! One to three faults at one address, so that every rule fails for every
//! reason, and for several at once.

use crate::builder::{Method, Row};
use crate::rng::Rng;
use reference::bundle::Instr;
use reference::entries::{Entry, MAX_WEIGHT};

/// Breaks the rule of some instruction, perhaps in vain; the kinds of
/// instruction that there are get equal shares.
pub fn break_some_rule(rng: &mut Rng, methods: &mut [Method]) {
    let mut places = vec![vec![]; Instr::NAMES.len()];
    for (class, method) in methods.iter().enumerate() {
        for (index, instr) in method.code.iter().enumerate() {
            places[usize::from(instr.opcode()) - 1].push((class, index));
        }
    }
    places.retain(|found| !found.is_empty());
    let opcode = rng.below(places.len());
    let (class, index) = rng.pick(&places[opcode]);
    let classes = methods.len();
    break_rule(rng, &mut methods[class], index, classes);
}

/// Breaks the rule of the instruction at this index.
pub fn break_rule(rng: &mut Rng, method: &mut Method, index: usize, classes: usize) {
    let instr = method.code[index];
    let goes_to = successors(instr, index);
    for _ in 0..rng.pick(&[1, 2, 2, 3]) {
        let own = goes_to.is_empty() || rng.chance(1, 3);
        let at = if own { index } else { rng.pick(&goes_to) };
        let row = &mut method.rows[at];
        if !own && rng.chance(1, 8) {
            other_depth(rng, row, method.stack_limit, classes);
        } else if let Some(entry) = some_entry(rng, row, instr) {
            *entry = match own {
                true => less(rng, *entry, classes),
                false => more(rng, *entry, classes),
            };
        }
    }
}

/// The rows that the instruction's rule compares its own with.
fn successors(instr: Instr, index: usize) -> Vec<usize> {
    let next = instr.goes_on().then_some(index + 1);
    let jump = instr.jump().map(|address| usize::from(address.0) - 1);
    next.into_iter().chain(jump).collect()
}

/// Some entry of a row: often one that the instruction names, else mostly a
/// reference if there is any.
fn some_entry<'r>(rng: &mut Rng, row: &'r mut Row, instr: Instr) -> Option<&'r mut Entry> {
    match (rng.below(4), instr) {
        (0, Instr::Load(v) | Instr::Store(v) | Instr::Enter(v, _) | Instr::Exit(v)) => {
            return row.variables.get_mut(usize::from(v.0));
        }
        (1, _) if !row.stack.is_empty() => return row.stack.first_mut(),
        _ => {}
    }
    let mut all: Vec<&mut Entry> = row.variables.iter_mut().chain(&mut row.stack).collect();
    let is_reference = |entry: &&mut Entry| matches!(entry, Entry::Ref { .. });
    if all.iter().any(is_reference) && rng.chance(3, 4) {
        all.retain(is_reference);
    }
    (!all.is_empty()).then(|| all.swap_remove(rng.below(all.len())))
}

/// For row l: an entry of less use, which mostly fits what came before. It
/// may no longer go, is no longer of the kind named, or misfits further on.
fn less(rng: &mut Rng, entry: Entry, classes: usize) -> Entry {
    let by = rng.between(1, 3) as i16;
    match (rng.below(8), entry) {
        (0..=2, Entry::Ref { class, pair }) => {
            Entry::reference(class, (pair.dip - by).max(0), pair.end)
        }
        (3..=5, Entry::Ref { class, pair }) => {
            let owing = (pair.end.min(0) - by).max(-MAX_WEIGHT);
            Entry::reference(class, pair.dip, owing)
        }
        (6, _) => unlike(rng, entry, classes),
        (7, Entry::Ref { class, .. }) => Entry::Nullable { class },
        _ => Entry::Top,
    }
}

/// For a row gone to: an entry that wants more than comes.
fn more(rng: &mut Rng, entry: Entry, classes: usize) -> Entry {
    let by = rng.between(1, 3) as i16;
    match (rng.below(7), entry) {
        (0 | 1, Entry::Ref { class, pair }) => {
            Entry::reference(class, (pair.dip + by).min(MAX_WEIGHT), pair.end)
        }
        (2 | 3, Entry::Ref { class, pair }) => {
            Entry::reference(class, pair.dip, (pair.end + by).min(MAX_WEIGHT))
        }
        // What comes may still owe a lock.
        (4, Entry::Ref { class, .. }) => rng.pick(&[Entry::Top, Entry::Nullable { class }]),
        // Null may come.
        (0..=3, Entry::Nullable { class }) => Entry::fresh(class),
        _ => unlike(rng, entry, classes),
    }
}

/// An entry of another kind or class.
fn unlike(rng: &mut Rng, entry: Entry, classes: usize) -> Entry {
    let class = rng.below(classes) as u8;
    match entry {
        Entry::Int => Entry::fresh(class),
        Entry::Top => rng.pick(&[Entry::Int, Entry::fresh(class), Entry::Nullable { class }]),
        Entry::Ref { class: own, pair } if own != class => Entry::Ref { class, pair },
        Entry::Nullable { class: own } if own != class => Entry::Nullable { class },
        Entry::Ref { .. } | Entry::Nullable { .. } => Entry::Int,
    }
}

/// One entry more or less on a row's stack.
fn other_depth(rng: &mut Rng, row: &mut Row, stack_limit: usize, classes: usize) {
    if row.stack.len() < stack_limit && rng.chance(1, 2) {
        let class = rng.below(classes) as u8;
        row.stack.push(rng.pick(&[Entry::Int, Entry::fresh(class)]));
    } else {
        row.stack.pop();
    }
}
