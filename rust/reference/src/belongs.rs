//! Whether a state is one of a bundle: answer 18.

use crate::bundle::Bundle;
use crate::known::Known;
use crate::slips::{AsWritten, Law, Slip};
use crate::state::{State, Thread, Value, MAX_COUNT, OBJECTS, OBJECT_0};

/// Whether the state is one of this bundle; if not, the answer is 18.
pub fn belongs(bundle: &Bundle, state: &State) -> bool {
    belongs_by::<AsWritten>(bundle, state)
}

pub(crate) fn belongs_by<L: Law>(bundle: &Bundle, state: &State) -> bool {
    let objects = usize::from(state.objects);
    objects <= OBJECTS
        && state.objects > OBJECT_0
        && state.classes[usize::from(OBJECT_0)] == bundle.exception()
        && state
            .classes
            .known(..objects)
            .iter()
            .all(|&class| class < bundle.count())
        && state
            .threads
            .iter()
            .all(|t| !t.live || thread_belongs(bundle, t, state.objects))
        && (0..objects).all(|object| fields_belong(bundle, state, object))
        && counts_belong::<L>(state)
}

fn thread_belongs(bundle: &Bundle, thread: &Thread, objects: u8) -> bool {
    if thread.class >= bundle.count() {
        return false;
    }
    let class = bundle.class(thread.class);
    let depth = usize::from(thread.depth);
    (1..=class.code_length()).contains(&thread.address)
        && depth <= class.stack_limit
        && all_point_somewhere(thread.variables.known(..class.variables), objects)
        && all_point_somewhere(thread.stack.known(..depth), objects)
}

/// The fields that the object's class uses refer to objects that there are.
fn fields_belong(bundle: &Bundle, state: &State, object: usize) -> bool {
    let used = bundle.class(*state.classes.known(object)).fields.len();
    all_point_somewhere(state.fields_of(object).known(..used), state.objects)
}

/// No value is a reference to an object that there isn't.
fn all_point_somewhere(values: &[Value], objects: u8) -> bool {
    let mut values = values.iter();
    !values.any(|&value| matches!(value, Value::Ref(object) if object >= objects))
}

/// Counts are in bounds, by live threads, and each of an object that there is
/// and that no other thread holds; the words agree with them.
fn counts_belong<L: Law>(state: &State) -> bool {
    let mut holders = 0;
    for (number, thread) in state.threads.iter().enumerate() {
        let highest = if thread.live { MAX_COUNT } else { 0 };
        let counts = state.counts_of(number).iter();
        let word = state.word(number);
        // Without an early end, so that many are compared at once.
        if counts.fold(false, |any, &count| any | (count > highest))
            || holders & word != 0
            || !word_belongs::<L>(state, number, word)
        {
            return false;
        }
        holders |= word;
    }
    u64::from(holders) >> state.objects == 0
}

/// The word of a thread, live or not, has the bits of the objects that it holds
/// by its counts, and no other.
fn word_belongs<L: Law>(state: &State, thread: usize, right: u32) -> bool {
    let word = *state.held.known(thread);
    match L::SLIP {
        Some(Slip::IdleWordIgnored) => word == right || !state.threads[thread].live,
        Some(Slip::BitTooManyBelongs) => right & !word == 0,
        Some(Slip::BitTooFewBelongs) => word & !right == 0,
        Some(Slip::BitsOnlyCounted) => word.count_ones() == right.count_ones(),
        _ => word == right,
    }
}
