//! Held words that disagree with the counts: how they are made, and what is
//! wrong with them.

use crate::rng::Rng;
use reference::belongs::belongs;
use reference::bundle::Bundle;
use reference::state::{State, OBJECTS, THREADS};

/// A thread's word that its counts don't ask for.
#[derive(Clone, Copy, Debug)]
pub struct WrongWord {
    live: bool,
    /// How many objects there are.
    objects: u8,
    extra: u32,
    missing: u32,
}

/// What is marked, and whether a wrong word has it.
pub type Mark = (&'static str, fn(&WrongWord) -> bool);

pub const MARKS: [Mark; 9] = [
    ("at a live thread", |wrong| wrong.live),
    ("at a thread that isn't live", |wrong| !wrong.live),
    ("by one bit too many", |wrong| wrong.bits() == (1, 0)),
    ("by one bit too few", |wrong| wrong.bits() == (0, 1)),
    ("by another object's bit", |wrong| wrong.bits() == (1, 1)),
    ("by the bit of an object that isn't there", |wrong| {
        u64::from(wrong.extra) >> wrong.objects > 0
    }),
    ("by bit 0 alone", |wrong| wrong.extra | wrong.missing == 1),
    ("by bit 31 alone, which is too many", |wrong| {
        (wrong.extra, wrong.missing) == (LAST, 0)
    }),
    ("by bit 31 alone, which is too few", |wrong| {
        (wrong.extra, wrong.missing) == (0, LAST)
    }),
];

/// The bit of the last object.
const LAST: u32 = 1 << (OBJECTS - 1);

impl WrongWord {
    /// The first wrong word of a state that has no other breach.
    pub fn alone(bundle: &Bundle, state: &State) -> Option<WrongWord> {
        let mut settled = state.clone();
        settled.settle_words();
        let thread = (0..THREADS).find(|&t| state.held[t] != settled.held[t])?;
        let (word, right) = (state.held[thread], settled.held[thread]);
        belongs(bundle, &settled).then_some(WrongWord {
            live: state.threads[thread].live,
            objects: state.objects,
            extra: word & !right,
            missing: right & !word,
        })
    }

    /// How many are too many, and how many are missing.
    fn bits(&self) -> (u32, u32) {
        (self.extra.count_ones(), self.missing.count_ones())
    }
}

/// Makes one thread's word wrong, half the time that of one which holds
/// something, the last object if it can be: there a bit can be missing.
pub fn break_word(rng: &mut Rng, state: &mut State) {
    let mut holders: Vec<usize> = (0..THREADS).filter(|&t| state.word(t) != 0).collect();
    holders.sort_by_key(|&t| state.word(t) & LAST);
    let thread = match holders.last() {
        Some(&last) if rng.chance(1, 4) => last,
        Some(_) if rng.chance(1, 3) => rng.pick(&holders),
        _ => rng.below(THREADS),
    };
    let right = state.word(thread);
    state.held[thread] = match rng.below(5) {
        0 => rng.number() as u32,
        1 if right != 0 => right ^ any_bit(rng, right),
        2 if right != u32::MAX => right ^ any_bit(rng, !right),
        3 if right != 0 && right != u32::MAX => right ^ any_bit(rng, right) ^ any_bit(rng, !right),
        _ => right ^ rng.pick(&[1, LAST]),
    };
}

/// One of the bits that are set, often the highest.
fn any_bit(rng: &mut Rng, word: u32) -> u32 {
    let bits = (0..u32::BITS).map(|place| 1 << place);
    let set: Vec<u32> = bits.filter(|bit| word & bit != 0).collect();
    match rng.chance(1, 2) {
        true => set[set.len() - 1],
        false => rng.pick(&set),
    }
}
