//! The answers of a run mixed into one number, as the exported C call mixes
//! them: equal numbers for equal answers.

use reference::bundle::Bundle;
use reference::machine::{answer, fresh, step, step_in};
use reference::slips::Slip;
use trace::Turn;

/// A digest with one more answer.
pub fn mixed(digest: u64, answer: u8) -> u64 {
    (digest * 31 + u64::from(answer)) % (1 << 32)
}

/// The reference's digest of a schedule from the fresh machine. Each step
/// looks at bundle and state for itself, as the proved step does.
pub fn of_run(bundle: &[u8], schedule: &[u8]) -> u64 {
    follow(fresh(bundle), schedule, |state, turn| {
        step(bundle, state, turn.thread(), turn.fails())
    })
}

/// The same by a machine that makes this slip.
pub fn of_slipped_run(bundle: &[u8], schedule: &[u8], slip: Slip) -> u64 {
    let opened = Bundle::open_with_code(bundle);
    follow(fresh(bundle), schedule, |state, turn| match &opened {
        Ok(opened) => slip.step(opened, state, turn.thread(), turn.fails()),
        Err(_) => answer::BAD_BUNDLE,
    })
}

/// The reference's digest of turns that may name any thread number.
pub fn of_turns(bundle: &[u8], turns: &[(u8, bool)]) -> u64 {
    let opened = Bundle::open_with_code(bundle);
    let (first, mut state) = fresh(bundle);
    turns
        .iter()
        .fold(u64::from(first), |digest, &(thread, fails)| {
            let answer = match &opened {
                Ok(opened) => step_in(opened, &mut state, thread, fails),
                Err(_) => answer::BAD_BUNDLE,
            };
            mixed(digest, answer)
        })
}

/// The digest of a schedule by a machine: what its fresh call gives, and its
/// step.
pub fn follow<S>(fresh: (u8, S), schedule: &[u8], step: impl Fn(&mut S, Turn) -> u8) -> u64 {
    let (first, mut state) = fresh;
    schedule.iter().fold(u64::from(first), |digest, &byte| {
        mixed(digest, step(&mut state, Turn(byte)))
    })
}
